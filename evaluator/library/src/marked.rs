//! Families of M1 to M10, and of M6 with `avoid`, read into tables that are worked out by hand; settled, asked and
//! layered from these.
//!
//! From: document 01, Ten marked files; Case tables and sound cases; document 02, [5], [6], [7].

use crate::calls::{layers, question, read, settle, LayersDue, ReadDue, Room, Sizes};
use crate::calls::{ASKED_WORDS, CHEAPEST, COST, DECIDED, LAYERS_WORDS, ROUNDS, SETTLED_WORDS};
use crate::corpus::stored;
use crate::due::{self, Asking, Layering, Settling};
use crate::held::{Held, NODES};
use crate::tests::Tests;
use std::path::Path;

/// A marked file's name, the record in front of the nodes, the used entries of clauses, constraints and formula, its
/// names, and the rounds over all settings that document 01 gives.
type Marked = (&'static str, [u64; 6], &'static [u64], &'static [u64], &'static [u8], &'static [&'static str], u64);

/// M1 to M10 and M6 with `avoid`, in the order of their files.
const MARKED: [Marked; 11] = [
    ("m01", [3, 2, 0, 1, 1, 0], &[128, 2, 4, 66, 0, 0], &[], &[1], &["low", "dampershut", "ab"], 5),
    ("m02", [1, 0, 0, 1, 0, 0], &[], &[], &[0], &["a"], 2),
    ("m03", [2, 2, 0, 1, 1, 0], &[128, 2, 0, 129, 1, 0], &[], &[1], &["p", "q"], 0),
    ("m04", [5, 4, 0, 1, 1, 0], &M4_CLAUSES, &[], &[1], &M4_NAMES, 15),
    ("m05", [5, 4, 0, 1, 0, 1], &M4_CLAUSES, &[], &[64, 1], &M4_NAMES, 15),
    ("m06-avoid", [5, 4, 1, 1, 1, 0], &M4_CLAUSES, &[8, 0, 1], &[1], &M4_NAMES, 15),
    ("m06", [5, 4, 1, 1, 1, 0], &M4_CLAUSES, &[8, 0, 0], &[1], &M4_NAMES, 15),
    ("m07", [1, 0, 0, 1, 1, 1], &[], &[], &[0], &["a"], 2),
    ("m08", [1, 0, 0, 1, 0, 0], &[], &[], &[67, 0, 0], &["a"], 2),
    ("m09", [2, 1, 0, 1, 0, 1], &[128, 2, 2], &[], &[0], &["b", "a"], 4),
    ("m10", [1, 2, 0, 1, 0, 0], &[0, 0, 0, 64, 0, 0], &[], &[0], &["a"], 1),
];

/// The decided atoms of their settings, by the setting's number.
const DECIDED_ATOMS: [&[u64]; 11] = [
    &[1, 3, 3],
    &[0, 1, 1],
    &[0],
    &M4_DECIDED,
    &M4_DECIDED,
    &M4_DECIDED,
    &M4_DECIDED,
    &[0, 1, 1],
    &[0, 1, 1],
    &[0, 2, 2],
    &[1],
];

/// The least numbers of their atoms, none for a ring.
const NUMBERS: [Option<&[u64]>; 11] = [
    Some(&[1, 0, 0]),
    Some(&[0]),
    None,
    Some(&[1, 0, 0, 0, 0]),
    Some(&[1, 0, 0, 0, 0]),
    Some(&[1, 0, 0, 0, 0]),
    Some(&[1, 0, 0, 0, 0]),
    Some(&[0]),
    Some(&[0]),
    Some(&[1, 0]),
    Some(&[0]),
];

/// Their lists and the numbers of their verdicts.
const LISTS: [(&[u16], u64); 11] = [
    (&[1], 1),
    (&[0], 3),
    (&[], 0),
    (&[1, 3], 3),
    (&[8], 1),
    (&[1], 1),
    (&[7], 1),
    (&[], 0),
    (&[0], 1),
    (&[1, 2], 2),
    (&[0], 1),
];

const M4_CLAUSES: [u64; 12] = [128, 2, 4, 128, 8, 16, 66, 0, 0, 68, 0, 0];
const M4_NAMES: [&str; 5] = ["low", "shut", "ab1", "stopped", "ab2"];
/// Both abnormalities everywhere, a cause where its digit is not 0, `low` where one cause is true or both are false.
const M4_DECIDED: [u64; 9] = [2, 4, 3, 4, 5, 5, 3, 5, 5];

/// The record and the tables of a marked file.
fn held((_, record, clauses, constraints, formula, names, _): Marked) -> Held {
    let mut held = Held::empty();
    held.record[..NODES].copy_from_slice(&record);
    held.record[NODES] = formula.len() as u64;
    held.clauses[..clauses.len()].copy_from_slice(clauses);
    held.constraints[..constraints.len()].copy_from_slice(constraints);
    held.formula[..formula.len()].copy_from_slice(formula);
    for (atom, name) in names.iter().enumerate() {
        held.names[16 * atom..][..name.len()].copy_from_slice(name.as_bytes());
    }
    held
}

/// Reads each file, in memory of its sizes and with two entries past each.
fn reads(tests: &mut Tests, folder: &Path) {
    tests.family("read: M1 to M10, tables by hand");
    let Sizes { clauses, constraints, formula, names, prices, answer } = Sizes::FULL;
    let longer = Sizes {
        clauses: clauses + 2,
        constraints: constraints + 2,
        formula: formula + 2,
        names: names + 2,
        prices: prices + 2,
        answer: answer + 2,
    };
    for (row, input) in MARKED.into_iter().zip(stored(folder, "marked")) {
        tests.require(&input.name, input.name.ends_with(&format!("{}.case", row.0)));
        let held = held(row);
        let answer = [&[0], held.record.as_slice()].concat();
        let due = ReadDue { refusal: 0, answer, tables: Some(held) };
        tests.require(&format!("{}: the evaluator's record and tables", row.0), due::read(&input.bytes) == due);
        for sizes in [Sizes::FULL, longer] {
            tests.call(|| format!("{}, {sizes:?}", row.0), read(&input.bytes, sizes, false, &due));
        }
    }
}

/// Settles every setting from the tables by hand, and the one past the last.
fn settles(tests: &mut Tests) {
    tests.family("settle: M1 to M10, tables by hand");
    for (row, decided) in MARKED.into_iter().zip(DECIDED_ATOMS) {
        let (name, .., rounds) = row;
        let held = held(row);
        let mut settling = Settling::of(held.case());
        tests.require(&format!("{name}: its settings"), settling.settings() == decided.len() as u64);
        let mut sum = 0;
        for (s, decided) in (0..).zip(decided) {
            let due = settling.words(s);
            tests.require(&format!("{name}, setting {s}: {decided} decided atoms"), due[3] == *decided);
            sum += due[2];
            tests.call(|| format!("{name}, setting {s}"), settle(&held, s, SETTLED_WORDS, (0, &due)));
        }
        tests.require(&format!("{name}: {rounds} rounds"), sum == rounds);
        let past = settling.settings();
        tests.call(|| format!("{name}, setting {past}"), settle(&held, past, SETTLED_WORDS, (14, &[0; SETTLED_WORDS])));
    }
}

/// The question from the tables by hand, with a list of two slots.
fn questions(tests: &mut Tests) {
    tests.family("question: M1 to M10, lists by hand");
    for ((row, decided), (list, verdict)) in MARKED.into_iter().zip(DECIDED_ATOMS).zip(LISTS) {
        let held = held(row);
        let asking = Asking::of(held.case());
        let due = asking.due(2);
        let own = (due.list.as_slice(), asking.minimal(), asking.verdicts());
        tests.require(&format!("{}: the evaluator's list", row.0), own == (list, list.len(), vec![verdict]));
        let sums = (due.answer[ROUNDS], due.answer[DECIDED]);
        tests.require(&format!("{}: the evaluator's sums", row.0), sums == (row.6, decided.iter().sum()));
        let cheapest = (due.answer[COST], due.answer[CHEAPEST]);
        let first = list.first().map_or(0, |setting| u64::from(*setting));
        tests.require(&format!("{}: the evaluator's cheapest", row.0), cheapest == (0, first));
        let room = Room { list: 2, work: asking.settings(), answer: ASKED_WORDS };
        tests.call(|| String::from(row.0), question(&held, room, &due));
    }
}

/// The layers from the tables by hand.
fn numbers(tests: &mut Tests) {
    tests.family("layers: M1 to M10, tables by hand");
    for (row, numbers) in MARKED.into_iter().zip(NUMBERS) {
        let held = held(row);
        let layering = Layering::of(&held.case());
        tests.require(&format!("{}: the evaluator's numbers", row.0), layering.numbers.as_deref() == numbers);
        tests.call(|| String::from(row.0), layers(&held, LAYERS_WORDS, &LayersDue::Told(&layering)));
    }
}

/// All families of the marked files.
pub fn run(tests: &mut Tests, folder: &Path) {
    reads(tests, folder);
    settles(tests);
    questions(tests);
    numbers(tests);
}
