//! The generated calls of the program `load`: loads at the ends of their ranges and past them, and drawn ones; and the
//! loads that the other programs get.

use crate::load::{Load, LOAD_ATOMS, LOAD_CAUSES, LOAD_CLAUSES};
use crate::random::Random;

/// The number of generated calls; their seeds are the numbers below it.
pub const CALLS: u64 = 2_000;

/// The digits that an argument of the program may have.
pub const ARGUMENT_DIGITS: usize = 19;

/// Seeds at the ends of their range and at ends of words.
const SEEDS: [u32; 5] = [0, 1, 65_536, 2_147_483_648, 4_294_967_295];

/// The highest number that an argument of the program can be.
const HIGHEST: u64 = 9_999_999_999_999_999_999;

/// Numbers of atoms at the ends of their range and past it; the last but one are in range in the low bits of their words.
const ATOMS: [u64; 11] = [0, 1, 2, 63, 64, 65, (1 << 8) + 5, (1 << 16) + 5, (1 << 32) + 5, (1 << 63) + 5, HIGHEST];

/// Numbers of clauses, in the same way.
const CLAUSES: [u64; 9] = [0, 1, 255, 256, 257, (1 << 16) + 5, (1 << 32) + 5, (1 << 63) + 5, HIGHEST];

/// A call of the program: its load, and whether zeros stand before the numbers.
pub struct Call {
    pub load: Load,
    pub is_padded: bool,
}

impl Call {
    /// The arguments of this call.
    pub fn arguments(&self) -> Vec<String> {
        let digits = if self.is_padded { ARGUMENT_DIGITS } else { 1 };
        let Load { seed, atoms, clauses } = self.load;
        [u64::from(seed), atoms, clauses].map(|n| format!("{n:0digits$}")).to_vec()
    }
}

/// A drawn seed: in one of five draws a small one.
fn drawn_seed(random: &mut Random) -> u32 {
    match random.below(5) {
        0 => random.below(100) as u32,
        _ => random.below(1 << 32) as u32,
    }
}

/// A drawn load in range: of few atoms in half of the draws, of few clauses in two of three.
fn drawn_load(random: &mut Random) -> Load {
    let most_atoms = *random.pick(&[6, 16, LOAD_ATOMS, LOAD_ATOMS]);
    let most_clauses = *random.pick(&[12, 60, LOAD_CLAUSES]);
    let atoms = random.between(1, most_atoms as usize) as u64;
    Load { seed: drawn_seed(random), atoms, clauses: random.between(0, most_clauses as usize) as u64 }
}

/// The call of `seed`: first each seed with each number of atoms and of clauses above, then drawn loads, one of 20 with a
/// number past its range; in one of 7 calls zeros stand before the numbers.
pub fn call(seed: u64) -> Call {
    let at = seed as usize;
    let is_padded = at % 7 == 3;
    if let Some(first) = SEEDS.get(at / (ATOMS.len() * CLAUSES.len())) {
        let load =
            Load { seed: *first, atoms: ATOMS[at / CLAUSES.len() % ATOMS.len()], clauses: CLAUSES[at % CLAUSES.len()] };
        return Call { load, is_padded };
    }
    let mut random = Random::new(seed);
    let load = drawn_load(&mut random);
    let load = match random.below(40) {
        0 => Load { atoms: LOAD_ATOMS + 1 + random.below(1_000) as u64, ..load },
        1 => Load { clauses: LOAD_CLAUSES + 1 + random.below(1_000) as u64, ..load },
        _ => load,
    };
    Call { load, is_padded }
}

/// A drawn load in range that has at most `causes` causes, or too many of them in one of four draws.
pub fn few_or_many_causes(random: &mut Random, causes: usize) -> Load {
    let is_many = random.chance(25);
    loop {
        let load = drawn_load(random);
        let found = load.causes();
        if is_many && found > LOAD_CAUSES || !is_many && found <= causes {
            return load;
        }
    }
}
