//! Families of settling, the question and the layers with records, tables and answers of every size, and the order of
//! refusals.

use crate::calls::{layers, question, settle, LayersDue, Room, ASKED_WORDS, LAYERS_WORDS, SETTLED_WORDS};
use crate::drawn::{drawn, rich, strewn, word};
use crate::due::{unanswered, unasked, Asking, Layering, Settling};
use crate::held::{Held, CLAUSE_WORDS, CONSTRAINT_WORDS, FORMULAS, FORMULA_BYTES, PRICES, RECORD_WORDS};
use crate::tests::Tests;
use evaluator::random::Random;

/// Drawn cases for each size.
const CASES: u64 = 2;

/// Memory with which the question of a rich case is asked.
const ROOM: Room = Room { list: 5, work: 81, answer: ASKED_WORDS };

/// A sound case with what is due: its settling, its asking and its layering.
struct Known {
    held: Held,
    settled: [u64; SETTLED_WORDS],
    asking: Asking,
    layering: Layering,
}

impl Known {
    /// The case of `seed`, with garbage past its counts.
    fn of(seed: u64) -> Known {
        let mut random = Random::new(seed);
        let shape = rich(&mut random);
        let case = drawn(&mut random, shape);
        let held = strewn(&mut random, &Held::of(&case));
        let (settled, layering) = (Settling::of(case.clone()).words(0), Layering::of(&case));
        Known { held, settled, asking: Asking::of(case), layering }
    }

    /// Calls the operations on `held`, which holds this case in memory of other lengths.
    fn accepted(&self, tests: &mut Tests, what: &str, held: &Held) {
        tests.call(|| format!("settle, {what}"), settle(held, 0, SETTLED_WORDS, (0, &self.settled)));
        tests.call(|| format!("question, {what}"), question(held, ROOM, &self.asking.due(ROOM.list)));
        tests.call(|| format!("layers, {what}"), layers(held, LAYERS_WORDS, &LayersDue::Told(&self.layering)));
    }
}

/// Calls the operations on `held`, to be refused with `number`.
pub fn refused(tests: &mut Tests, what: &str, held: &Held, number: u32) {
    tests.call(|| format!("settle, {what}"), settle(held, 0, SETTLED_WORDS, (number, &[0; SETTLED_WORDS])));
    tests.call(|| format!("question, {what}"), question(held, ROOM, &unasked(number)));
    tests.call(|| format!("layers, {what}"), layers(held, LAYERS_WORDS, &LayersDue::Refused(number)));
}

/// `held` with a table of `length` elements, cut or with garbage behind.
pub fn resized(held: &Held, table: &str, length: usize) -> Held {
    let mut random = Random::new(length as u64);
    let mut other = held.clone();
    match table {
        "clauses" => other.clauses.resize_with(length, || word(&mut random)),
        "constraints" => other.constraints.resize_with(length, || word(&mut random)),
        "formula" => other.formula.resize_with(length, || word(&mut random) as u8),
        "names" => other.names.resize_with(length, || word(&mut random) as u8),
        "prices" => other.prices.resize_with(length, || word(&mut random) as u32),
        _ => other.record.resize_with(length, || word(&mut random)),
    }
    other
}

/// Each table at every length below its size, and at some above.
fn tables(tests: &mut Tests) {
    for (table, size) in [("clauses", CLAUSE_WORDS), ("constraints", CONSTRAINT_WORDS), ("formula", FORMULA_BYTES)] {
        tests.family(&format!("settle, question, layers: {table} shorter than their size"));
        for known in (0..CASES).map(Known::of) {
            for length in 0..size {
                refused(tests, &length.to_string(), &resized(&known.held, table, length), 1);
            }
        }
        tests.family(&format!("settle, question, layers: {table} longer than their size"));
        for known in (0..CASES).map(Known::of) {
            for length in size..size + 30 {
                known.accepted(tests, &length.to_string(), &resized(&known.held, table, length));
            }
        }
    }
}

/// The table of prices, which the question alone is lent, at every length below its size and at some above.
fn prices(tests: &mut Tests) {
    tests.family("question: prices shorter than their size");
    for known in (0..20).map(Known::of) {
        for length in 0..PRICES {
            let short = resized(&known.held, "prices", length);
            tests.call(|| length.to_string(), question(&short, ROOM, &unasked(1)));
        }
    }
    tests.family("question: prices longer than their size");
    for known in (0..20).map(Known::of) {
        for length in PRICES..PRICES + 30 {
            let long = resized(&known.held, "prices", length);
            tests.call(|| length.to_string(), question(&long, ROOM, &known.asking.due(ROOM.list)));
        }
    }
}

/// Records of 0 to 22 words, where nothing is touched, and of more than 23.
fn records(tests: &mut Tests) {
    tests.family("settle, question, layers: records of 0 to 22 words");
    for known in (0..20).map(Known::of) {
        for length in 0..RECORD_WORDS {
            for held in [known.held.clone(), resized(&known.held, "clauses", 767)] {
                let short = resized(&held, "record", length);
                tests.call(|| format!("settle, {length}"), settle(&short, 0, SETTLED_WORDS, (1, &[])));
                tests.call(|| format!("question, {length}"), question(&short, ROOM, &unanswered()));
                let complaints = layers(&short, LAYERS_WORDS, &LayersDue::Untouched);
                tests.call(|| format!("layers, {length}"), complaints);
            }
        }
    }
    tests.family("settle, question, layers: records of more than 23 words");
    for known in (0..20).map(Known::of) {
        for length in RECORD_WORDS + 1..RECORD_WORDS + 14 {
            known.accepted(tests, &length.to_string(), &resized(&known.held, "record", length));
        }
    }
}

/// Answers with too few words, where nothing is touched, and with more than enough.
fn answers(tests: &mut Tests) {
    tests.family("settle, question, layers: answers with too few words");
    for known in (0..20).map(Known::of) {
        for held in [known.held.clone(), resized(&known.held, "formula", 2_047)] {
            for words in 0..SETTLED_WORDS {
                tests.call(|| format!("settle, {words}"), settle(&held, 0, words, (1, &[])));
                tests.call(|| format!("settle, {words}"), settle(&held, u64::MAX, words, (1, &[])));
            }
            for answer in 0..ASKED_WORDS {
                let room = Room { answer, ..ROOM };
                tests.call(|| format!("question, {room:?}"), question(&held, room, &unanswered()));
            }
            for words in 0..LAYERS_WORDS {
                tests.call(|| format!("layers, {words}"), layers(&held, words, &LayersDue::Untouched));
            }
        }
    }
    tests.family("settle, question, layers: answers with words to spare");
    for known in (0..20).map(Known::of) {
        for more in 0..16 {
            let room = Room { answer: ASKED_WORDS + more, ..ROOM };
            let words = SETTLED_WORDS + more;
            tests.call(|| format!("settle, {words}"), settle(&known.held, 0, words, (0, &known.settled)));
            tests.call(|| format!("question, {room:?}"), question(&known.held, room, &known.asking.due(ROOM.list)));
            let words = LAYERS_WORDS + more;
            let complaints = layers(&known.held, words, &LayersDue::Told(&known.layering));
            tests.call(|| format!("layers, {words}"), complaints);
        }
    }
}

/// 1 comes before 13, 13 before 14 and 15, 1 before 14 and 15.
fn order(tests: &mut Tests) {
    tests.family("settle, question, layers: the order of refusals");
    let room = Room { work: 0, ..ROOM };
    for known in (0..40).map(Known::of) {
        let mut unsound = known.held.clone();
        unsound.record[FORMULAS] = 0;
        for (held, number) in [(&unsound, 1), (&known.held, 1)] {
            let short = resized(held, "constraints", CONSTRAINT_WORDS - 1);
            tests.call(
                || String::from("settle, 1"),
                settle(&short, u64::MAX, SETTLED_WORDS, (number, &[0; SETTLED_WORDS])),
            );
            tests.call(|| String::from("question, 1"), question(&short, room, &unasked(number)));
            tests.call(|| String::from("layers, 1"), layers(&short, LAYERS_WORDS, &LayersDue::Refused(number)));
            let short = resized(held, "prices", PRICES - 1);
            tests.call(|| String::from("question, 63 prices"), question(&short, room, &unasked(number)));
        }
        tests.call(|| String::from("settle, 13"), settle(&unsound, u64::MAX, SETTLED_WORDS, (13, &[0; SETTLED_WORDS])));
        tests.call(|| String::from("question, 13"), question(&unsound, room, &unasked(13)));
        tests.call(|| String::from("layers, 13"), layers(&unsound, LAYERS_WORDS, &LayersDue::Refused(13)));
        tests.call(
            || String::from("settle, 14"),
            settle(&known.held, u64::MAX, SETTLED_WORDS, (14, &[0; SETTLED_WORDS])),
        );
        tests.call(|| String::from("question, 15"), question(&known.held, room, &unasked(15)));
    }
}

/// All families by size.
pub fn run(tests: &mut Tests) {
    tables(tests);
    prices(tests);
    records(tests);
    answers(tests);
    order(tests);
}
