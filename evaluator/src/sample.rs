//! The generated files, by seed.

use crate::body_edges::BODY_EDGES;
use crate::cost_edges::COST_EDGES;
use crate::damage::damaged;
use crate::edges::EDGES;
use crate::edition_edges::{with_odd_line, EDITION_EDGES};
use crate::families::{chain, diagnosis, program, wide};
use crate::file::LITERALS;
use crate::layout::file;
use crate::lists::{list_edge, KINDS};
use crate::load::LOAD_CAUSES;
use crate::load_calls::few_or_many_causes;
use crate::long_bodies::lengthened;
use crate::overrides::{edition_line, overrides, placed};
use crate::random::Random;
use crate::shapes::{shaped, Shaped};
use crate::text_edges::{line_edge, text_edge, Edged};
use std::ops::Range;

/// The number of generated files; their seeds are the numbers below it.
pub const SAMPLES: u64 = 6_000;

/// The number of generated files with chains and rings; their seeds are the numbers from `SAMPLES` on.
pub const SHAPES: u64 = 4_000;

/// The number of generated files whose text stands at a limit; their seeds are the numbers from `SAMPLES` + `SHAPES` on.
pub const TEXTS: u64 = 400;

/// The number of generated files with long bodies; their seeds are the numbers from `SAMPLES` + `SHAPES` + `TEXTS` on.
pub const BODIES: u64 = 1_200;

/// The number of generated files with edition lines; their seeds are the numbers behind those with long bodies.
pub const OVERRIDES: u64 = 1_600;

/// The number of generated loads; their seeds are the numbers behind those with edition lines.
pub const LOADS: u64 = 200;

/// The most causes of a load that is read.
const FEW_CAUSES: usize = 5;

/// What the generator knows of a file's answer.
#[derive(Clone, Copy)]
pub enum Due {
    Read,
    Refused(u32),
    Unknown,
}

/// A generated file.
pub struct Sample {
    pub bytes: Vec<u8>,
    pub due: Due,
}

/// The file with chains and rings of `seed`, if it is the seed of one.
pub fn shape(seed: u64) -> Option<Shaped> {
    (SAMPLES..SAMPLES + SHAPES).contains(&seed).then(|| shaped(&mut Random::new(seed)))
}

/// The file whose text stands at a limit of `seed`, if it is the seed of one.
pub fn edged(seed: u64) -> Option<Edged> {
    let edge = [line_edge, text_edge][seed as usize % 2];
    (SAMPLES + SHAPES..bodies().start).contains(&seed).then(|| edge(&mut Random::new(seed)))
}

/// The seeds of the files with long bodies.
pub fn bodies() -> Range<u64> {
    let start = SAMPLES + SHAPES + TEXTS;
    start..start + BODIES
}

/// The seeds of the files with edition lines.
pub fn editions() -> Range<u64> {
    bodies().end..bodies().end + OVERRIDES
}

/// The seeds of the loads.
pub fn loads() -> Range<u64> {
    editions().end..editions().end + LOADS
}

/// The file of `seed`: below `SAMPLES` one of 20 stands at a limit, one of 100 at one of cost lines, half are damaged,
/// the others are whole.
pub fn sample(seed: u64) -> Sample {
    if let Some(shaped) = shape(seed) {
        return Sample { bytes: shaped.bytes, due: Due::Read };
    }
    if let Some(edged) = edged(seed) {
        return Sample { bytes: edged.bytes, due: Due::Read };
    }
    let mut random = Random::new(seed);
    if bodies().contains(&seed) {
        return long_bodies(&mut random, (seed - bodies().start) as usize);
    }
    if editions().contains(&seed) {
        return edition(&mut random, (seed - editions().start) as usize);
    }
    if loads().contains(&seed) {
        return load(&mut random);
    }
    match seed % 100 {
        n if n % 20 == 0 => edge(&mut random, seed as usize / 20),
        50 => cost_edge(&mut random, seed as usize / 100),
        n if n % 2 == 1 => {
            let causes = random.between(0, 4);
            let mut bytes = whole(&mut random, causes);
            for _ in 0..*random.pick(&[1, 1, 1, 2, 2, 3]) {
                bytes = damaged(&mut random, bytes);
            }
            Sample { bytes, due: Due::Unknown }
        }
        _ => {
            let causes = match random.below(200) {
                0..=179 => random.between(0, 5),
                180..=197 => random.between(6, 8),
                _ => random.between(9, 10),
            };
            Sample { bytes: whole(&mut random, causes), due: Due::Read }
        }
    }
}

/// The file number `at` of those at a limit: one of 25 at the list's length, for the others the limits in turn, each
/// from both sides in turn.
fn edge(random: &mut Random, at: usize) -> Sample {
    if at % 25 == 24 {
        return list_edge(random, at / 25 % KINDS);
    }
    EDGES[at % EDGES.len()](random, at / EDGES.len() % 2)
}

/// The file number `at` of those at a limit of cost lines, the limits in turn, each from both sides in turn.
fn cost_edge(random: &mut Random, at: usize) -> Sample {
    COST_EDGES[at % COST_EDGES.len()](random, at / COST_EDGES.len() % 2)
}

/// The file number `at` of those with long bodies: half stand at the limit, the kinds in turn, each from both sides in
/// turn; the others are of the families, half of them damaged.
fn long_bodies(random: &mut Random, at: usize) -> Sample {
    if at % 2 == 0 {
        return BODY_EDGES[at / 2 % BODY_EDGES.len()](random, at / 2 / BODY_EDGES.len() % 2);
    }
    let past = 2 * (at / 2 % 2);
    let causes = random.between(0, 4);
    let lines = family(random, causes);
    let lines = lengthened(random, lines, LITERALS + past);
    let bytes = file(random, &lines);
    if past == 0 {
        return Sample { bytes, due: Due::Read };
    }
    Sample { bytes: damaged(random, bytes), due: Due::Unknown }
}

/// The file number `at` of those with edition lines: a quarter stands at a limit, the kinds in turn, each from both
/// sides in turn; half has atoms that are assumed alone, one of ten of these no edition line; the others are of the
/// families, damaged or with an edition line more in two of three draws.
fn edition(random: &mut Random, at: usize) -> Sample {
    if at % 4 == 0 {
        return EDITION_EDGES[at / 4 % EDITION_EDGES.len()](random, at / 4 / EDITION_EDGES.len() % 2);
    }
    let line = edition_line(random);
    if at % 4 != 3 {
        let (threes, twos) = *random.pick(&[(0, 2), (0, 3), (1, 1), (1, 2), (1, 3), (2, 1), (2, 2), (3, 2), (1, 4)]);
        let lines = overrides(random, threes, twos);
        let lines = if random.chance(90) { placed(random, lines, line) } else { lines };
        return Sample { bytes: file(random, &lines), due: Due::Read };
    }
    let causes = random.between(0, 3);
    let lines = family(random, causes);
    let lines = placed(random, lines, line);
    let bytes = match random.below(3) {
        0 => file(random, &lines),
        1 => {
            let lines = with_odd_line(random, lines);
            file(random, &lines)
        }
        _ => {
            let bytes = file(random, &lines);
            damaged(random, bytes)
        }
    };
    Sample { bytes, due: Due::Unknown }
}

/// A load with few causes, or with too many.
fn load(random: &mut Random) -> Sample {
    let load = few_or_many_causes(random, FEW_CAUSES);
    let due = if load.causes() > LOAD_CAUSES { Due::Refused(12) } else { Due::Read };
    Sample { bytes: load.text().into_bytes(), due }
}

/// A lawful file with at most `causes` causes, or one if that is 0 and the family needs one.
fn whole(random: &mut Random, causes: usize) -> Vec<u8> {
    let lines = family(random, causes);
    file(random, &lines)
}

/// The lines of such a file, of a drawn family.
fn family(random: &mut Random, causes: usize) -> Vec<String> {
    match random.below(20) {
        0 => wide(random, causes),
        1 | 2 => {
            let links = random.between(1, if causes > 6 { 12 } else { 53 });
            chain(random, causes.max(1), links)
        }
        3..=11 if causes > 0 => {
            let readings = random.between(1, 6);
            diagnosis(random, causes, readings)
        }
        n => {
            let defined = *random.pick(&[1, 1, 2, 3, 3, 4, 5, 6, 8, 12, 20]);
            program(random, causes, defined, n % 2 == 0)
        }
    }
}
