//! Families of generating: loads in range and past it, with outputs around the length of the text; each text is read, and
//! what is read is written.

use crate::calls::{read, Sizes};
use crate::due;
use crate::generate_call::{as_due, due as load_due, generate, generated_text};
use crate::held::Held;
use crate::tests::Tests;
use crate::write_call::{Page, WriteDue, WRITE_WORDS};
use crate::writing::{self, strewn_names, way_back};
use evaluator::file;
use evaluator::load::Load;
use evaluator::load_calls::{call, CALLS};
use evaluator::random::Random;

/// The longest text of a load.
const LOAD_BYTES: usize = 9_931;

/// Seeds at the ends of their range and at ends of words.
const SEEDS: [u32; 6] = [0, 1, 65_535, 65_536, 2_147_483_648, 4_294_967_295];

/// Numbers of atoms and of clauses in range, at its ends and where a name becomes longer.
const ATOMS: [u64; 8] = [1, 2, 3, 10, 11, 32, 63, 64];
const CLAUSES: [u64; 7] = [0, 1, 2, 64, 128, 255, 256];

/// Numbers past both ranges: in range in their low bits or not.
const PAST: [u64; 16] = [
    257,
    258,
    261,
    320,
    512,
    65_536,
    65_541,
    1 << 31,
    u32::MAX as u64,
    1 << 32,
    (1 << 32) + 5,
    (1 << 32) + 64,
    1 << 63,
    (1 << 63) + 5,
    u64::MAX - 1,
    u64::MAX,
];

/// Loads with their texts, the draws worked out by hand.
const BY_HAND: [(Load, &str); 3] = [
    (
        Load { seed: 1, atoms: 3, clauses: 4 },
        "(atom a0)
(atom a1)
(atom a2)
(true a1)
(if a1 a0)
(true a0)
(if a1(not a2)a0 a1)
(query a0)
",
    ),
    (
        Load { seed: 0, atoms: 1, clauses: 1 },
        "(atom a0)
(true a0)
(query a0)
",
    ),
    (
        Load { seed: 4_294_967_295, atoms: 2, clauses: 0 },
        "(atom a0)
(atom a1)
(query a0)
",
    ),
];

/// Every load of the seeds, atoms and clauses above.
pub fn grid() -> Vec<Load> {
    let load = |seed, atoms| CLAUSES.map(|clauses| Load { seed, atoms, clauses });
    SEEDS.into_iter().flat_map(|seed| ATOMS.into_iter().flat_map(move |atoms| load(seed, atoms))).collect()
}

/// Generates `load`, which is in range, to outputs of 0 and 1 bytes and of one byte less to seven more than its text, of
/// the longest text and of more.
pub fn lengths(tests: &mut Tests, load: &Load) {
    let whole = load_due(load, Page::of(LOAD_BYTES));
    tests.require(&format!("{load:?}: a text of at most {LOAD_BYTES} bytes"), whole.refusal == 0);
    let length = whole.text.len();
    for out in [0, 1, length - 1] {
        let page = Page { out, answer: WRITE_WORDS + out % 2 };
        tests.call(|| format!("{load:?}, {page:?}"), generate(load, page, &WriteDue::refused(23)));
    }
    for out in [length, length + 1, length + 7, LOAD_BYTES, LOAD_BYTES + 100] {
        let page = Page { out, answer: WRITE_WORDS + out % 2 };
        tests.call(|| format!("{load:?}, {page:?}"), generate(load, page, &whole));
    }
    let page = Page { out: length, answer: 0 };
    tests.call(|| format!("{load:?}, {page:?}"), generate(load, page, &WriteDue::untouched()));
}

/// Generates `load`, which is past a range, to outputs of several lengths: 22 whether or not a text would fit.
fn past(tests: &mut Tests, load: &Load) {
    for out in [0, 1, 93, LOAD_BYTES, 32_768] {
        for answer in [WRITE_WORDS, WRITE_WORDS + 1] {
            let page = Page { out, answer };
            tests.call(|| format!("{load:?}, {page:?}"), generate(load, page, &WriteDue::refused(22)));
        }
        let page = Page { out, answer: 0 };
        tests.call(|| format!("{load:?}, {page:?}"), generate(load, page, &WriteDue::untouched()));
    }
}

/// Loads whose atoms, whose clauses, or both are out of range.
fn out_of_range(tests: &mut Tests) {
    tests.family("generate: atoms out of range");
    for (seed, atoms) in SEEDS.iter().flat_map(|seed| [0, 65, 66].into_iter().chain(PAST).map(move |n| (*seed, n))) {
        past(tests, &Load { seed, atoms, clauses: 4 });
    }
    tests.family("generate: clauses out of range");
    for (seed, clauses) in SEEDS.iter().flat_map(|seed| PAST.map(|n| (*seed, n))) {
        past(tests, &Load { seed, atoms: 3, clauses });
    }
    tests.family("generate: atoms and clauses out of range");
    for (atoms, clauses) in [0].into_iter().chain(PAST).flat_map(|atoms| PAST.map(|clauses| (atoms, clauses))) {
        past(tests, &Load { seed: 1, atoms, clauses });
    }
}

/// Texts by hand to outputs of each length, with answers of no word, of one and of two.
fn by_hand(tests: &mut Tests) {
    tests.family("generate: outputs of each length, texts by hand");
    for (load, text) in BY_HAND {
        for out in 0..2 * text.len() {
            let due = if out < text.len() { WriteDue::refused(23) } else { WriteDue::text(text) };
            for answer in [WRITE_WORDS, WRITE_WORDS + 1] {
                tests.call(|| format!("{load:?}, {out} bytes"), generate(&load, Page { out, answer }, &due));
            }
            let page = Page { out, answer: 0 };
            tests.call(|| format!("{load:?}, {page:?}"), generate(&load, page, &WriteDue::untouched()));
        }
    }
}

/// Reads what the library generates of `loads` into full tables, which accepts it or refuses it with 12; of what is
/// accepted it writes the case, and goes the way back by itself.
fn texts(tests: &mut Tests, loads: &[Load]) {
    let texts: Vec<(String, Result<Vec<u8>, u32>)> =
        loads.iter().map(|load| (format!("{load:?}"), generated_text(load, LOAD_BYTES))).collect();
    tests.family("read: loads");
    let mut met = [0, 0];
    for (name, text) in &texts {
        let number = text.as_ref().map_or_else(|number| *number, |text| due::read(text).refusal);
        let is_read = text.is_ok() && [0, 12].contains(&number);
        tests.require(&format!("{name}: a text that is read or refused with 12"), is_read);
        let Ok(text) = text else { continue };
        tests.call(|| name.clone(), read(text, Sizes::FULL, false, &due::read(text)));
        met[usize::from(number == 12)] += 1;
    }
    tests.require("loads that are read, and loads that are refused", met.iter().all(|n| *n > 100));
    tests.family("write: loads");
    for (at, (name, text)) in texts.iter().enumerate() {
        let Some(case) = text.as_ref().ok().and_then(|text| file::read(text).ok()) else { continue };
        writing::lengths(tests, name, &strewn_names(&mut Random::new(at as u64), &Held::of(&case)));
    }
    tests.family("write: the way back, loads");
    for (name, text) in &texts {
        if let Some(complaints) = text.as_ref().ok().and_then(|text| way_back(text)) {
            tests.call(|| name.clone(), complaints);
        }
    }
}

/// All families of generating.
pub fn run(tests: &mut Tests) {
    by_hand(tests);
    let grid = grid();
    tests.family("generate: seeds, atoms and clauses at the ends of their ranges");
    grid.iter().for_each(|load| lengths(tests, load));
    let (drawn, others): (Vec<Load>, Vec<Load>) = (0..CALLS).map(|seed| call(seed).load).partition(Load::is_in_range);
    tests.family("generate: drawn loads");
    drawn.iter().for_each(|load| lengths(tests, load));
    tests.family("generate: loads past a range, as the evaluator answers them");
    others.iter().for_each(|load| tests.call(|| format!("{load:?}"), as_due(load, Page::of(LOAD_BYTES))));
    out_of_range(tests);
    texts(tests, &[grid, drawn].concat());
}
