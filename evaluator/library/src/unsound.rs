//! Families of cases that are not sound: each phrase of documents 01 and 02 broken alone, refused with 13 by settling,
//! the question, the layers and writing; counts far past the limits; and drawn changes.

use crate::breaches::{Breach, COUNTS, ENTRIES, FORMULA};
use crate::case_sizes;
use crate::drawn::{drawn, rich, small, strewn, word, Shape};
use crate::held::{Held, EDITION, NODES, PART_BYTES, QUERIES};
use crate::limits::accepted;
use crate::sound::broken;
use crate::tests::Tests;
use crate::write_call::{as_due, write, Page, WriteDue, PAGE};
use evaluator::case::Case;
use evaluator::random::Random;

/// The cases of each breach.
const ROUNDS: u64 = 150;

/// Counts that are past every limit and small when cut to fewer bits.
const FAR: [u64; 8] = [1 << 8, 1 << 16, 1 << 31, 1 << 32, (1 << 32) + 1, 1 << 62, 1 << 63, u64::MAX - 1];

/// Calls the operations on `held`, writing too, to be refused with 13.
pub fn refused(tests: &mut Tests, what: &str, held: &Held) {
    case_sizes::refused(tests, what, held, 13);
    for page in [Page::of(0), PAGE] {
        tests.call(|| format!("write, {what}"), write(held, page, &WriteDue::refused(13)));
    }
}

/// The sound case that the breach `name` starts from.
fn base(random: &mut Random, name: &str) -> Case {
    let shape = match name {
        "65 to 74 atoms" => Shape { atoms: 64, causes: 0, clauses: 70, constraints: 2, queries: 2, nodes: 5 },
        "a 17th formula" => Shape { queries: QUERIES, ..rich(random) },
        _ => rich(random),
    };
    drawn(random, shape)
}

/// One family for `breach`: each case is sound before it, and then breaks its phrase and no other.
fn breach(tests: &mut Tests, (name, phrase, breaks): Breach) {
    tests.family(&format!("unsound: {name}"));
    for seed in 0..ROUNDS {
        let mut random = Random::new(seed);
        let case = base(&mut random, name);
        let mut held = strewn(&mut random, &Held::of(&case));
        tests.require(&format!("seed {seed}: sound before"), broken(&held).is_empty());
        breaks(&mut random, &mut held);
        tests.require(&format!("seed {seed}: {:?} alone", broken(&held)), broken(&held) == [phrase]);
        tests.require(&format!("seed {seed}: not sound by the evaluator"), held.full().case().is_none());
        refused(tests, &format!("seed {seed}"), &held);
    }
}

/// Counts of 0 atoms and far past the limits, where other phrases break too.
fn far_counts(tests: &mut Tests) {
    for (at, name) in ["atoms", "clauses", "constraints", "formulas", "nodes"].into_iter().enumerate() {
        tests.family(&format!("unsound: {name} far past the limit"));
        for seed in 0..ROUNDS {
            let mut random = Random::new(seed);
            let shape = rich(&mut random);
            let mut held = Held::of(&drawn(&mut random, shape));
            let at = if name == "nodes" { NODES + random.below(held.formulas()) } else { at };
            held.record[at] = held.record[at].wrapping_add(*random.pick(&FAR)).max(257);
            refused(tests, &format!("seed {seed}, {}", held.record[at]), &held);
        }
    }
    tests.family("unsound: no atom");
    for seed in 0..ROUNDS {
        let mut random = Random::new(seed);
        let shape = rich(&mut random);
        let mut held = Held::of(&drawn(&mut random, shape));
        held.record[0] = 0;
        if seed % 2 == 0 {
            held.record[1..3].fill(0);
            held.record[4..6].fill(0);
        }
        refused(tests, &format!("seed {seed}"), &held);
    }
}

/// The record of zeros that a refused reading gives, with tables of zeros and with drawn ones.
fn zeros(tests: &mut Tests) {
    tests.family("unsound: a record of zeros");
    refused(tests, "tables of zeros", &Held::zeros());
    for seed in 1..ROUNDS {
        refused(tests, &format!("seed {seed}"), &strewn(&mut Random::new(seed), &Held::zeros()));
    }
}

/// Drawn changes to drawn cases: refused with 13 where a phrase is broken, else answered as the evaluator does.
fn changed(tests: &mut Tests) {
    tests.family("sound or not: drawn changes");
    let mut met = [0, 0];
    for seed in 0..4_000 {
        let mut random = Random::new(seed);
        let shape = small(&mut random);
        let mut held = Held::of(&drawn(&mut random, shape));
        for _ in 0..random.between(1, 2) {
            change(&mut random, &mut held);
        }
        let sound = broken(&held).is_empty();
        tests.require(&format!("seed {seed}: sound or not by the evaluator"), held.full().case().is_some() == sound);
        met[usize::from(sound)] += 1;
        if sound {
            accepted(tests, &format!("seed {seed}"), held.case(), &held);
            tests.call(|| format!("seed {seed}, write"), as_due(&held, PAGE));
        } else {
            refused(tests, &format!("seed {seed}, {:?}", broken(&held)), &held);
        }
    }
    tests.require("both sound and unsound cases", met.iter().all(|n| *n > 400));
}

/// Changes one of the words and bytes that a count covers, or the one behind them.
fn change(random: &mut Random, held: &mut Held) {
    let near = |random: &mut Random, word: u64| match random.below(4) {
        0 => word ^ 1 << random.below(12),
        1 => word.wrapping_add(1),
        2 => word.wrapping_sub(1),
        _ => self::word(random),
    };
    let [_, clauses, constraints, ..] = held.record[..] else { panic!("a record") };
    let formulas = held.formulas().min(QUERIES - 1);
    match random.below(8) {
        0 | 1 => {
            let at = random.below(NODES + formulas + 2);
            let at = if at > NODES + formulas { EDITION } else { at };
            held.record[at] = near(random, held.record[at]);
        }
        2..=4 => {
            let at = random.below(3 * clauses.min(255) as usize + 1);
            held.clauses[at] = near(random, held.clauses[at]);
        }
        5 => {
            let at = random.below(3 * constraints.min(31) as usize + 1);
            held.constraints[at] = near(random, held.constraints[at]);
        }
        _ => {
            let q = random.below(formulas + 1);
            let at = q * PART_BYTES + random.below(held.nodes(q).min(PART_BYTES - 1) + 1);
            held.formula[at] = near(random, u64::from(held.formula[at])) as u8;
        }
    }
}

/// All families of soundness.
pub fn run(tests: &mut Tests) {
    for row in COUNTS.into_iter().chain(ENTRIES).chain(FORMULA) {
        breach(tests, row);
    }
    far_counts(tests);
    zeros(tests);
    changed(tests);
}
