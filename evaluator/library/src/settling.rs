//! Families of settling: settings of stored, generated and drawn cases, the sums that stored reports tell and that the
//! question answers, and settings past the last.

use crate::calls::{asked_words, settle, settled_words, DECIDED, ROUNDS, SETTLED_WORDS};
use crate::corpus::{folders, generated, some_accepted, Input};
use crate::drawn::{drawn, small, strewn};
use crate::due::Settling;
use crate::held::Held;
use crate::tests::{differing, Complaints, Tests};
use crate::wrappers::{record, tables};
use causes::lent;
use evaluator::case::Case;
use evaluator::cause;
use evaluator::file;
use evaluator::random::Random;
use std::path::Path;

/// The seeds of the generated files whose settings are settled.
const SEEDS: u64 = 1_200;

/// The drawn cases.
const DRAWN: u64 = 1_000;

/// The most settings that are all tried.
const TRIED: u64 = 243;

/// The number of settings of `case`.
fn settings(case: &Case) -> u64 {
    cause::settings(&case.causes()) as u64
}

/// All settings below `end`, or for many the first, the last and some between.
fn some_settings(end: u64) -> Vec<u64> {
    if end <= TRIED {
        return (0..end).collect();
    }
    let mut random = Random::new(end);
    [0, 1, 2, end - 2, end - 1].into_iter().chain((0..40).map(|_| random.below(end as usize) as u64)).collect()
}

/// Settles settings of `case`, with garbage past the counts of `held`, which holds it.
pub fn case_settings(tests: &mut Tests, name: &str, case: Case, held: &Held) {
    let mut settling = Settling::of(case);
    for s in some_settings(settling.settings()) {
        let due = settling.words(s);
        tests.call(|| format!("{name}, setting {s}"), settle(held, s, SETTLED_WORDS + s as usize % 3, (0, &due)));
    }
}

/// Settles settings of the cases of `inputs`.
fn files(tests: &mut Tests, name: &str, inputs: &[Input]) {
    tests.family(name);
    for (at, input) in inputs.iter().enumerate() {
        if let Ok(case) = file::read(&input.bytes) {
            let mut random = Random::new(at as u64);
            let held = strewn(&mut random, &Held::of(&case));
            case_settings(tests, &input.name, case, &held);
        }
    }
}

/// The number that the report `text` tells behind `word`, none if it tells a refusal.
fn told(text: &[u8], word: &str) -> Option<u64> {
    let text = std::str::from_utf8(text).expect("a report in ASCII");
    text.lines().find_map(|line| line.strip_prefix(word)?.strip_suffix(')')?.parse().ok())
}

/// The rounds and the decided atoms that settling every setting of a stored file gives, held to its report.
fn sums(tests: &mut Tests, folder: &Path) {
    tests.family("settle: sums over all settings, by the stored reports");
    for input in folders(folder).into_iter().flat_map(|(_, inputs)| inputs) {
        let report = input.report.as_deref().expect("a stored report");
        let Some(rounds) = told(report, "(rounds ") else { continue };
        let decided = told(report, "(decided ");
        let case = file::read(&input.bytes).unwrap_or_else(|r| panic!("{}: refused with {}", input.name, r.number));
        let held = Held::of(&case);
        let (record, tables) = (record(&case, &held), tables(&held));
        let end = settings(&case);
        let settled: Result<Vec<_>, _> = (0..end).map(|s| lent::settle(&record, &tables, s)).collect();
        let sums = settled.map(|all| (all.iter().map(|a| a.rounds).sum(), Some(all.iter().map(|a| a.decided).sum())));
        tests.call(|| input.name.clone(), differing(Ok((rounds, decided)), sums));
    }
}

/// The answers to `held`, which has `settings` settings, by themselves: a setting's decided atoms are the ones in its
/// words, and the sums over all settings are what the question answers.
fn adds_up(held: &Held, settings: u64) -> Complaints {
    let settled = settled_words(held, settings);
    let ones = |words: &[u64; SETTLED_WORDS]| u64::from(words[0].count_ones() + words[1].count_ones());
    let sum = |place: usize| settled.iter().fold(0, |sum: u64, words| sum.wrapping_add(words[place]));
    let asked = asked_words(held, settings);
    [
        differing(settled.iter().map(ones).collect::<Vec<_>>(), settled.iter().map(|words| words[3]).collect()),
        differing((sum(2), sum(3)), (asked[ROUNDS], asked[DECIDED])),
    ]
    .concat()
}

/// Whether settling and the question agree on generated and drawn cases, whatever the evaluator says.
fn agreement(tests: &mut Tests) {
    tests.family("settle: sums over all settings, as the question answers them");
    for input in generated(SEEDS, |s| s % 2 == 0 && s % 20 != 0) {
        let Ok(case) = file::read(&input.bytes) else { continue };
        let end = settings(&case);
        tests.call(|| input.name.clone(), adds_up(&Held::of(&case), end));
    }
    for seed in 0..DRAWN {
        let mut random = Random::new(seed);
        let shape = small(&mut random);
        let case = drawn(&mut random, shape);
        let end = settings(&case);
        let held = strewn(&mut random, &Held::of(&case));
        tests.call(|| format!("drawn, seed {seed}"), adds_up(&held, end));
    }
}

/// Every setting of drawn cases, with zeros and with garbage past the counts.
fn drawn_cases(tests: &mut Tests) {
    for (name, garbage) in [("zeros", false), ("garbage", true)] {
        tests.family(&format!("settle: drawn cases, {name} past the counts"));
        for seed in 0..DRAWN {
            let mut random = Random::new(seed);
            let shape = small(&mut random);
            let case = drawn(&mut random, shape);
            let clean = Held::of(&case);
            let held = if garbage { strewn(&mut random, &clean) } else { clean };
            case_settings(tests, &format!("seed {seed}"), case, &held);
        }
    }
}

/// Settings from 3^k on, for each number of causes.
fn past_the_last(tests: &mut Tests) {
    for causes in 0..=10 {
        tests.family(&format!("settle: settings of {causes} causes and past the last"));
        for seed in 0..12 {
            let mut random = Random::new(seed);
            let shape =
                crate::drawn::Shape { atoms: causes + 3, causes, clauses: 5, constraints: 1, queries: 2, nodes: 3 };
            let case = drawn(&mut random, shape);
            let held = Held::of(&case);
            let mut settling = Settling::of(case);
            let end = settling.settings();
            tests.require("3^k settings", end == 3u64.pow(causes as u32));
            let due = settling.words(end - 1);
            tests.call(|| format!("seed {seed}, the last"), settle(&held, end - 1, SETTLED_WORDS, (0, &due)));
            let past =
                [end, end + 1, 2 * end, 3 * end, 59_049, 65_536, 1 << 32, (1 << 32) + end - 1, 1 << 63, u64::MAX];
            for s in past.into_iter().filter(|s| *s >= end) {
                tests.call(
                    || format!("seed {seed}, setting {s}"),
                    settle(&held, s, SETTLED_WORDS + 1, (14, &[0; SETTLED_WORDS])),
                );
            }
        }
    }
}

/// All families of settling.
pub fn run(tests: &mut Tests, folder: &Path) {
    for (name, inputs) in folders(folder).into_iter().filter(|(_, inputs)| some_accepted(inputs)) {
        files(tests, &format!("settle: stored files, {name}"), &inputs);
    }
    files(tests, "settle: generated files", &generated(SEEDS, |s| s % 2 == 0));
    sums(tests, folder);
    agreement(tests);
    drawn_cases(tests);
    past_the_last(tests);
}
