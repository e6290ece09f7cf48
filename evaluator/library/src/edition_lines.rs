//! Families of edition lines: read in every place, twice, in other spellings and with too many settings, and written;
//! lines, tables and texts by hand.
//!
//! From: document 02, [10].

use crate::calls::{read, ReadDue, Sizes};
use crate::corpus::{EACH, M4};
use crate::due;
use crate::held::{Held, EDITION};
use crate::tests::{differing, Tests};
use crate::write_call::{write, Page, WriteDue};
use crate::writing::{way_back, EACH_TEXT, M4_TEXT};
use causes::lent::{self, Tables};
use causes::Refusal;
use evaluator::file;

/// Lawful edition lines, with the edition that they give.
const LINES: [(&str, u64); 4] =
    [("(edition 1)", 1), ("(edition 2)", 2), ("(edition 1 )", 1), ("  ( edition   2 ) ", 2)];

/// What stands for the number in lines that are no forms.
const WORDS: [&str; 24] = [
    "",
    " 0",
    " 3",
    " 9",
    " 00",
    " 01",
    " 02",
    " 10",
    " 11",
    " 12",
    " 20",
    " 22",
    " 1a",
    " 2-",
    " -",
    " -1",
    " two",
    " a",
    " 1 1",
    " 1 2",
    " 2 a",
    " (1)",
    " (not 2)",
    " 00000000002",
];

/// The lines of `file`, each with its LF.
fn lines(file: &[u8]) -> Vec<&[u8]> {
    file.split_inclusive(|b| *b == b'\n').collect()
}

/// The lines of `file` with `line` in front of the line `at`, the first being 0.
fn with(file: &[u8], at: usize, line: &str) -> Vec<u8> {
    let lines = lines(file);
    [&lines[..at].concat(), line.as_bytes(), b"\n", &lines[at..].concat()].concat()
}

/// What reading `file`, which has no edition line, is due with one that gives `edition`.
fn in_edition(file: &[u8], edition: u64) -> ReadDue {
    let mut due = due::read(file);
    due.answer[1 + EDITION] = edition;
    due.tables.as_mut().expect("a file that is read").record[EDITION] = edition;
    due
}

/// A file without an edition line, and with one in each place.
fn places(tests: &mut Tests) {
    tests.family("read: an edition line in each place, records by hand");
    for file in [M4, EACH] {
        tests.require("edition 1 without a line", due::read(file) == in_edition(file, 1));
        tests.call(|| String::from("no line"), read(file, Sizes::FULL, false, &in_edition(file, 1)));
        for (line, edition) in LINES {
            for at in 0..=lines(file).len() {
                let other = with(file, at, line);
                let due = in_edition(file, edition);
                tests.require(&format!("{line:?} at {at}: the evaluator's record"), due::read(&other) == due);
                tests.call(|| format!("{line:?} at {at}"), read(&other, Sizes::FULL, false, &due));
            }
        }
    }
}

/// A file with two edition lines, in every two places: the second is refused, and the record is zeros.
fn twice(tests: &mut Tests) {
    tests.family("read: two edition lines in every two places");
    for (line, second) in LINES.iter().flat_map(|line| LINES.iter().map(move |second| (line.0, second.0))) {
        for at in 0..=lines(EACH).len() {
            for then in at..=lines(EACH).len() {
                let other = with(&with(EACH, at, line), then + 1, second);
                let due = due::refused(21, then as u64 + 2);
                tests.require(&format!("{line:?} at {at}, {then}: the evaluator's refusal"), due::read(&other) == due);
                tests
                    .call(|| format!("{line:?} at {at}, {second:?} at {then}"), read(&other, Sizes::FULL, false, &due));
            }
        }
    }
}

/// Lines with another number, another word or more: no forms, also behind an edition line.
fn other_words(tests: &mut Tests) {
    tests.family("read: edition lines that are no forms");
    let others =
        ["(edition2)", "(editions 2)", "(2 edition)", "(edition", "edition 2", "((edition 2))", "(edition 2))"];
    let all = WORDS.iter().map(|word| format!("(edition{word})")).chain(others.map(String::from));
    for line in all {
        for front in ["", "(edition 2)\n"] {
            for at in [0, 5, lines(EACH).len()] {
                let other = [front.as_bytes(), &with(EACH, at, &line)].concat();
                let due = due::refused(5, (at + 1 + front.lines().count()) as u64);
                tests.require(&format!("{line:?} at {at}: the evaluator's refusal"), due::read(&other) == due);
                tests.call(|| format!("{front:?}, {line:?} at {at}"), read(&other, Sizes::FULL, false, &due));
            }
        }
    }
}

/// Files with so many causes of three choices and so many atoms of assumptions alone, the line first or last: 12 where
/// the product passes 59,049 in the edition that holds, and 11 before it where there is no query.
fn products(tests: &mut Tests) {
    tests.family("read: up to 59,049 settings and more in both editions");
    let few = [(10, 0), (9, 1), (8, 3), (6, 6), (4, 9), (3, 11), (1, 14), (0, 15)];
    let many = [(11, 0), (10, 1), (9, 2), (8, 4), (6, 7), (4, 10), (3, 12), (1, 15), (0, 16), (0, 64), (32, 32)];
    for (threes, twos) in few.into_iter().chain(many) {
        let atoms: String = (0..threes).map(|i| format!("(atom c{i})\n")).collect();
        let assumed: String = (0..twos).map(|i| format!("(false t{i})\n")).collect();
        let query = if threes > 0 { "(query c0)\n" } else { "(query t0)\n" };
        for (line, edition) in LINES.into_iter().take(2) {
            for query in [query, ""] {
                for file in [format!("{line}\n{atoms}{assumed}{query}"), format!("{assumed}{query}{atoms}{line}")] {
                    let is_over = 3u128.pow(threes) << if edition == 2 { twos } else { 0 } > 59_049;
                    let own = due::read(file.as_bytes());
                    let due = match (query, is_over) {
                        ("", _) => due::refused(11, 0),
                        (_, true) => due::refused(12, 0),
                        _ => own.clone(),
                    };
                    tests.require(&format!("{file:?}: the evaluator's"), own == due && (is_over || due.refusal != 12));
                    tests.call(|| format!("{file:?}"), read(file.as_bytes(), Sizes::FULL, false, &due));
                }
            }
        }
    }
}

/// The text `text` in `edition`: with its line behind those of the atoms in edition 2.
fn text_in(text: &str, edition: u64) -> String {
    let (atoms, rest) =
        text.split_at(text.rfind("(atom").map_or(0, |at| at + text[at..].find('\n').map_or(0, |n| n + 1)));
    let line = if edition == 2 { "(edition 2)\n" } else { "" };
    format!("{atoms}{line}{rest}")
}

/// Texts of both editions, with outputs of each length, and the way back of files with the line in each place.
fn texts(tests: &mut Tests) {
    tests.family("write: both editions, texts by hand");
    for (file, text) in [(EACH, EACH_TEXT), (M4, M4_TEXT)] {
        for (line, edition) in LINES {
            let said = file::read(&with(file, 0, line)).unwrap_or_else(|r| panic!("refused with {}", r.number));
            let (held, text) = (Held::of(&said), text_in(text, edition));
            for out in 0..text.len() + 20 {
                let due = if out < text.len() { WriteDue::refused(19) } else { WriteDue::text(&text) };
                tests.call(|| format!("edition {edition}, {out} bytes"), write(&held, Page::of(out), &due));
            }
        }
    }
    tests.family("write: the way back, both editions");
    for file in [M4, EACH] {
        for (line, at) in LINES.iter().flat_map(|line| (0..=lines(file).len()).map(move |at| (line.0, at))) {
            let complaints = way_back(&with(file, at, line)).unwrap_or_else(|| vec![String::from("refused")]);
            tests.call(|| format!("{line:?} at {at}"), complaints);
        }
    }
}

/// A rule with a 12th literal, put into tables that were read: it is written behind the lines of the atoms and of the
/// edition, and the text is refused in its line.
fn long_body(tests: &mut Tests) {
    tests.family("read: a text of each edition with a 12th literal, line by hand");
    let file = "(if a b c d e f g h i j k l)\n(true l)\n(query a)\n";
    let atoms: String = ('a'..='l').map(|name| format!("(atom {name})\n")).collect();
    for (line, edition) in LINES {
        let mut tables = Tables::new();
        let mut out = vec![0; text_in(&atoms, edition).len() + file.len() + 2];
        let record = lent::read(format!("{file}{line}").as_bytes(), &mut tables);
        tables.clauses[1] |= 1;
        let written =
            record.and_then(|record| lent::write(&record, &tables, &mut out)).map(|length| out[..length].to_vec());
        let text = text_in(&atoms, edition) + &file.replace("(if a b", "(if a a b");
        tests.call(|| format!("{line:?}, written"), differing(Ok(text.clone().into_bytes()), written));
        let refused = lent::read(text.as_bytes(), &mut tables);
        let due = Err(Refusal::ManyLiterals { line: 12 + edition });
        tests.call(|| format!("{line:?}, read"), differing(due, refused));
    }
}

/// All families of edition lines.
pub fn run(tests: &mut Tests) {
    places(tests);
    twice(tests);
    other_words(tests);
    products(tests);
    texts(tests);
    long_body(tests);
}
