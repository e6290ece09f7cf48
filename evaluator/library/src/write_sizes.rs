//! Families of writing with records, tables and answers of every size, and the order of refusals.

use crate::case_sizes::resized;
use crate::corpus::EACH;
use crate::drawn::{drawn, rich};
use crate::held::{Held, CLAUSE_WORDS, CONSTRAINT_WORDS, FORMULAS, FORMULA_BYTES, NAMES_BYTES, PRICES, RECORD_WORDS};
use crate::tests::Tests;
use crate::write_call::{due, write, Page, WriteDue, PAGE, WRITE_WORDS};
use crate::writing::strewn_names;
use evaluator::case::Case;
use evaluator::file;
use evaluator::random::Random;

/// The tables and their sizes.
const TABLES: [(&str, usize); 5] = [
    ("clauses", CLAUSE_WORDS),
    ("constraints", CONSTRAINT_WORDS),
    ("formula", FORMULA_BYTES),
    ("names", NAMES_BYTES),
    ("prices", PRICES),
];

/// The drawn case of `seed` at prices that are not over the limit, with garbage past its counts.
fn lawful(seed: u64) -> Held {
    let mut random = Random::new(seed);
    let shape = rich(&mut random);
    let case = drawn(&mut random, shape);
    let prices = case.prices.iter().map(|price| price % 2_000_001).collect();
    strewn_names(&mut random, &Held::of(&Case { prices, ..case }))
}

/// Each table at every length below its size, and at some above.
fn tables(tests: &mut Tests) {
    for (table, size) in TABLES {
        tests.family(&format!("write: {table} shorter than their size"));
        for base in (0..2).map(lawful) {
            for length in 0..size {
                let short = resized(&base, table, length);
                tests.call(|| length.to_string(), write(&short, PAGE, &WriteDue::refused(1)));
            }
        }
        tests.family(&format!("write: {table} longer than their size"));
        for base in (0..20).map(lawful) {
            let due = due(&base, PAGE);
            tests.require("a text", due.refusal == 0);
            for length in size..size + 30 {
                tests.call(|| length.to_string(), write(&resized(&base, table, length), PAGE, &due));
            }
        }
    }
}

/// Records of 0 to 22 words, where nothing is touched, and of more than 23.
fn records(tests: &mut Tests) {
    tests.family("write: records of 0 to 22 words");
    for base in (0..20).map(lawful) {
        for length in 0..RECORD_WORDS {
            for held in [base.clone(), resized(&base, "names", NAMES_BYTES - 1)] {
                let short = resized(&held, "record", length);
                tests.call(|| length.to_string(), write(&short, PAGE, &WriteDue::untouched()));
            }
        }
    }
    tests.family("write: records of more than 23 words");
    for base in (0..20).map(lawful) {
        let due = due(&base, PAGE);
        for length in RECORD_WORDS + 1..RECORD_WORDS + 14 {
            tests.call(|| length.to_string(), write(&resized(&base, "record", length), PAGE, &due));
        }
    }
}

/// Answers of no word, where nothing is touched, and with words to spare.
fn answers(tests: &mut Tests) {
    tests.family("write: answers of no word");
    for base in (0..20).map(lawful) {
        for held in [base.clone(), resized(&base, "prices", PRICES - 1)] {
            for out in [0, PAGE.out] {
                let page = Page { out, answer: 0 };
                tests.call(|| format!("{page:?}"), write(&held, page, &WriteDue::untouched()));
            }
        }
    }
    tests.family("write: answers with words to spare");
    for base in (0..20).map(lawful) {
        let due = due(&base, PAGE);
        for more in 0..16 {
            let page = Page { answer: WRITE_WORDS + more, ..PAGE };
            tests.call(|| format!("{page:?}"), write(&base, page, &due));
            let page = Page { out: 0, ..page };
            tests.call(|| format!("{page:?}"), write(&base, page, &WriteDue::refused(19)));
        }
    }
}

/// A file whose rule of 200 bytes is written with 201.
fn long_file() -> Vec<u8> {
    let names: Vec<String> = (0..12).map(|i| format!("v{i:02}xxxxxxxxxxxx")).collect();
    let facts: String = names.iter().map(|name| format!("(true {name})\n")).collect();
    let rule = format!("(if {}(not {}){})\n", names[0], names[1], names[2..].join(" "));
    format!("{facts}{rule}(query {})\n", names[0]).into_bytes()
}

/// 1 comes before 13, 18 and 19, 13 before 18 and 19, 18 before 19.
fn order(tests: &mut Tests) {
    tests.family("write: the order of refusals");
    let held = |file: &[u8]| Held::of(&file::read(file).unwrap_or_else(|r| panic!("refused with {}", r.number)));
    let (short, long) = (held(EACH), held(&long_file()));
    for held in [&short, &long] {
        let mut wrong = [held.clone(), held.clone(), held.clone()];
        wrong[0].record[FORMULAS] = 0;
        wrong[1].names[0] = b'X';
        wrong[2].prices[0] = 2_000_001;
        for page in [Page::of(0), PAGE] {
            for (held, (table, size)) in wrong.iter().chain([held]).flat_map(|h| TABLES.map(|table| (h, table))) {
                let cut = resized(held, table, size - 1);
                tests.call(|| format!("1, {table}"), write(&cut, page, &WriteDue::refused(1)));
            }
            for held in &wrong {
                tests.call(|| format!("13, {page:?}"), write(held, page, &WriteDue::refused(13)));
            }
        }
    }
    for page in [Page::of(0), Page::of(1), PAGE] {
        tests.call(|| format!("18, {page:?}"), write(&long, page, &WriteDue::refused(18)));
    }
    tests.call(|| String::from("19"), write(&short, Page::of(0), &WriteDue::refused(19)));
}

/// All families of writing by size.
pub fn run(tests: &mut Tests) {
    tables(tests);
    records(tests);
    answers(tests);
    order(tests);
}
