//! Families of the question: stored, generated and drawn cases, with lists and work areas around what is needed.

use crate::calls::{question, Room, ASKED_WORDS, DECIDED, ROUNDS};
use crate::corpus::{folders, generated, some_accepted, Input};
use crate::drawn::{drawn, small, strewn};
use crate::due::{unasked, Asking};
use crate::held::Held;
use crate::tests::Tests;
use evaluator::answer::LIST_SLOTS;
use evaluator::case::Case;
use evaluator::file;
use evaluator::random::Random;
use std::path::Path;

/// The seeds of the generated files whose question is asked.
const SEEDS: u64 = 2_400;

/// The drawn cases.
const DRAWN: u64 = 1_200;

/// The verdicts met, and how often more than one minimal explanation, verdicts that differ, and 16 queries.
#[derive(Default)]
pub struct Met {
    verdicts: [usize; 4],
    several: usize,
    differing: usize,
    sixteen: usize,
}

impl Met {
    /// Counts what `asking` meets.
    fn count(&mut self, asking: &Asking) {
        let verdicts = asking.verdicts();
        for verdict in &verdicts {
            self.verdicts[*verdict as usize] += 1;
        }
        self.several += usize::from(asking.minimal() > 1);
        self.differing += usize::from(verdicts.iter().any(|verdict| *verdict != verdicts[0]));
        self.sixteen += usize::from(verdicts.len() == 16);
    }

    /// Fails the family under way unless all was met.
    pub fn require(&self, tests: &mut Tests) {
        tests.require("each verdict and m > 1", self.verdicts.iter().all(|n| *n > 0) && self.several > 0);
        tests.require("verdicts that differ, and 16 queries", self.differing > 0 && self.sixteen > 0);
    }
}

/// Asks the question of `case`, which `held` holds: lists of 0, 1, m − 1, m and m + 1 slots, work areas of a byte less
/// than there are settings, of as many and of more.
pub fn asked(tests: &mut Tests, name: &str, case: Case, held: &Held, met: &mut Met) {
    let asking = Asking::of(case);
    let (settings, found) = (asking.settings(), asking.minimal());
    met.count(&asking);
    let mut lists = vec![0, 1, found.saturating_sub(1), found, found + 1];
    lists.dedup();
    for list in lists {
        for more in [0, 7] {
            let room = Room { list, work: settings + more, answer: ASKED_WORDS + more % 2 };
            tests.call(|| format!("{name}, {room:?}"), question(held, room, &asking.due(list)));
        }
        let room = Room { list, work: settings - 1, answer: ASKED_WORDS };
        tests.call(|| format!("{name}, {room:?}"), question(held, room, &unasked(15)));
    }
}

/// Asks the questions of the cases of `inputs`.
fn files(tests: &mut Tests, name: &str, inputs: &[Input]) -> Met {
    tests.family(name);
    let mut met = Met::default();
    for (at, input) in inputs.iter().enumerate() {
        if let Ok(case) = file::read(&input.bytes) {
            let mut random = Random::new(at as u64);
            let held = strewn(&mut random, &Held::of(&case));
            asked(tests, &input.name, case, &held, &mut met);
        }
    }
    met
}

/// Asks the questions of the load files, with the program's list.
fn load(tests: &mut Tests, name: &str, inputs: &[Input]) {
    tests.family(name);
    let mut most = [0, 0];
    for input in inputs {
        let case = file::read(&input.bytes).unwrap_or_else(|r| panic!("refused with {}", r.number));
        let held = strewn(&mut Random::new(1), &Held::of(&case));
        let asking = Asking::of(case);
        let due = asking.due(LIST_SLOTS);
        most = [most[0].max(due.answer[ROUNDS]), most[1].max(due.answer[DECIDED])];
        let room = Room { list: LIST_SLOTS, work: asking.settings(), answer: ASKED_WORDS };
        tests.call(|| format!("{}, {room:?}", input.name), question(&held, room, &due));
    }
    tests.require("rounds and decided atoms past 2^20", most.iter().all(|sum| *sum > 1 << 20));
}

/// Drawn cases, with garbage past the counts.
fn drawn_cases(tests: &mut Tests) -> Met {
    tests.family("question: drawn cases, garbage past the counts");
    let mut met = Met::default();
    for seed in 0..DRAWN {
        let mut random = Random::new(seed);
        let shape = small(&mut random);
        let case = drawn(&mut random, shape);
        let held = strewn(&mut random, &Held::of(&case));
        asked(tests, &format!("seed {seed}"), case, &held, &mut met);
    }
    met
}

/// Work areas of every length below 3^k, and lists of every length up to past m.
fn every_length(tests: &mut Tests) {
    tests.family("question: work areas of each length below 3^k");
    for seed in 0..24 {
        let mut random = Random::new(seed);
        let shape = small(&mut random);
        let case = drawn(&mut random, shape);
        let held = Held::of(&case);
        for work in 0..Asking::of(case).settings() {
            let room = Room { list: seed as usize, work, answer: ASKED_WORDS };
            tests.call(|| format!("seed {seed}, {room:?}"), question(&held, room, &unasked(15)));
        }
    }
    tests.family("question: lists of each length");
    for causes in 1..=6 {
        let file = several(causes);
        let case = file::read(file.as_bytes()).unwrap_or_else(|r| panic!("refused with {}", r.number));
        let held = Held::of(&case);
        let asking = Asking::of(case);
        tests.require("2^k minimal explanations", asking.minimal() == 1 << causes);
        for list in 0..asking.minimal() + 9 {
            let room = Room { list, work: asking.settings(), answer: ASKED_WORDS };
            tests.call(|| format!("{file:?}, {room:?}"), question(&held, room, &asking.due(list)));
        }
    }
}

/// A file with `causes` causes that must all be decided, so with a minimal explanation for each way to decide them.
pub fn several(causes: usize) -> String {
    let body: Vec<String> = (0..causes).map(|i| format!("d{i}")).collect();
    let decided: String = (0..causes).map(|i| format!("(if d{i} c{i})\n(if d{i} (not c{i}))\n")).collect();
    format!("{decided}(if low {})\n(seen low)\n(query c0)\n", body.join(" "))
}

/// All families of the question.
pub fn run(tests: &mut Tests, folder: &Path) {
    for (name, inputs) in folders(folder).into_iter().filter(|(_, inputs)| some_accepted(inputs)) {
        let family = format!("question: stored files, {name}");
        if name == "load" {
            load(tests, &family, &inputs);
        } else {
            files(tests, &family, &inputs);
        }
    }
    files(tests, "question: generated files", &generated(SEEDS, |s| s % 2 == 0 && s % 20 != 0)).require(tests);
    drawn_cases(tests).require(tests);
    every_length(tests);
}
