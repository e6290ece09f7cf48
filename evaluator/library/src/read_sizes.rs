//! Families of reading into memory of every size.

use crate::calls::{read, ReadDue, Sizes};
use crate::corpus::{refused_files, EACH, M4};
use crate::due;
use crate::tests::Tests;
use evaluator::random::Random;

/// The pairs of drawn sizes.
const DRAWN: u64 = 3_000;

/// A table's name, its size, and the sizes with another one for it.
type Table = (&'static str, usize, fn(usize) -> Sizes);

/// The five tables.
const TABLES: [Table; 5] = [
    ("clauses", Sizes::FULL.clauses, |clauses| Sizes { clauses, ..Sizes::FULL }),
    ("constraints", Sizes::FULL.constraints, |constraints| Sizes { constraints, ..Sizes::FULL }),
    ("formula", Sizes::FULL.formula, |formula| Sizes { formula, ..Sizes::FULL }),
    ("names", Sizes::FULL.names, |names| Sizes { names, ..Sizes::FULL }),
    ("prices", Sizes::FULL.prices, |prices| Sizes { prices, ..Sizes::FULL }),
];

/// What is due where the answer's words are too few.
fn untouched() -> ReadDue {
    ReadDue { refusal: 1, answer: Vec::new(), tables: None }
}

/// Files that are read, refused at a line, refused at the end and refused for their length.
fn files() -> Vec<Vec<u8>> {
    let numbers = [2, 5, 12, 16, 17];
    let refused = refused_files().into_iter().filter(|(n, _, _)| numbers.contains(n)).map(|(_, _, file)| file);
    [M4.to_vec(), EACH.to_vec()].into_iter().chain(refused).collect()
}

/// Each table alone at every length below its size, and at some above.
fn one_table(tests: &mut Tests) {
    for (name, size, sizes) in TABLES {
        tests.family(&format!("read: {name} shorter than their size"));
        for file in files() {
            for length in 0..size {
                tests.call(|| format!("{length}"), read(&file, sizes(length), true, &due::refused(1, 0)));
            }
        }
        tests.family(&format!("read: {name} longer than their size"));
        for file in files() {
            let due = due::read(&file);
            for length in size..size + 40 {
                tests.call(|| format!("{length}"), read(&file, sizes(length), true, &due));
            }
        }
    }
}

/// Answers of 0 to 55 words, with full tables and with a short one.
fn answers(tests: &mut Tests) {
    tests.family("read: answers of 0 to 23 words");
    for file in files() {
        for answer in 0..24 {
            for clauses in [0, 767, 768, 769] {
                let sizes = Sizes { clauses, answer, ..Sizes::FULL };
                tests.call(|| format!("{sizes:?}"), read(&file, sizes, true, &untouched()));
            }
        }
    }
    tests.family("read: answers of 24 and more words");
    for file in files() {
        for answer in 24..56 {
            let sizes = Sizes { answer, ..Sizes::FULL };
            tests.call(|| format!("{sizes:?}"), read(&file, sizes, true, &due::read(&file)));
            let short = Sizes { names: 1_023, ..sizes };
            tests.call(|| format!("{short:?}"), read(&file, short, true, &due::refused(1, 0)));
        }
    }
}

/// Drawn sizes of all tables and the answer, near their sizes or far below.
fn drawn_sizes(tests: &mut Tests) {
    tests.family("read: drawn sizes of all tables");
    let files = files();
    for seed in 0..DRAWN {
        let mut random = Random::new(seed);
        let mut near = |size: usize| match random.below(8) {
            0 => random.below(size),
            1 => size - 1,
            _ => size + random.below(4),
        };
        let sizes = Sizes {
            clauses: near(Sizes::FULL.clauses),
            constraints: near(Sizes::FULL.constraints),
            formula: near(Sizes::FULL.formula),
            names: near(Sizes::FULL.names),
            prices: near(Sizes::FULL.prices),
            answer: near(Sizes::FULL.answer),
        };
        let file = random.pick(&files);
        let full = sizes.clauses >= Sizes::FULL.clauses
            && sizes.constraints >= Sizes::FULL.constraints
            && sizes.formula >= Sizes::FULL.formula
            && sizes.names >= Sizes::FULL.names
            && sizes.prices >= Sizes::FULL.prices;
        let due = match (sizes.answer < Sizes::FULL.answer, full) {
            (true, _) => untouched(),
            (false, false) => due::refused(1, 0),
            (false, true) => due::read(file),
        };
        tests.call(|| format!("seed {seed}, {sizes:?}"), read(file, sizes, true, &due));
    }
}

/// All families of reading by size.
pub fn run(tests: &mut Tests) {
    one_table(tests);
    answers(tests);
    drawn_sizes(tests);
}
