//! Families of sound cases at each limit, and with parts past the formulas that are no formulas, and kinds past the
//! constraints that are no kinds.

use crate::calls::{layers, question, settle, LayersDue, Room, ASKED_WORDS, LAYERS_WORDS, SETTLED_WORDS};
use crate::case_sizes::refused;
use crate::drawn::{deep, drawn, strewn, Shape};
use crate::due::{Asking, Layering, Settling};
use crate::held::{Held, EDITION, FORMULAS, NODES, PART_BYTES, QUERIES};
use crate::sound::{broken, Phrase};
use crate::tests::Tests;
use evaluator::case::Case;
use evaluator::random::Random;

/// A shape below the limits.
const SHAPE: Shape = Shape { atoms: 12, causes: 3, clauses: 14, constraints: 2, queries: 1, nodes: 5 };

/// A number of nodes and a byte for each place of a part that holds no formula of `SHAPE`.
const NO_FORMULAS: [(&str, u64, u8); 7] = [
    ("no node", 0, 0),
    ("a 129th node", 129, 0),
    ("nodes far past the limit", u64::MAX, 0),
    ("nodes behind the formula", 2, 0),
    ("an operand is missing", 1, 64),
    ("a formula atom names no atom", 1, 63),
    ("a node past 68", 1, 69),
];

/// Settles, asks and layers `case`, held by `held`, as the evaluator does.
pub fn accepted(tests: &mut Tests, what: &str, case: Case, held: &Held) {
    let mut settling = Settling::of(case.clone());
    for s in [0, settling.settings() - 1, settling.settings() / 2] {
        let due = settling.words(s);
        tests.call(|| format!("{what}, settle {s}"), settle(held, s, SETTLED_WORDS, (0, &due)));
    }
    let layering = Layering::of(&case);
    tests.call(|| format!("{what}, layers"), layers(held, LAYERS_WORDS, &LayersDue::Told(&layering)));
    let asking = Asking::of(case);
    let room = Room { list: 3, work: asking.settings(), answer: ASKED_WORDS };
    tests.call(|| format!("{what}, question"), question(held, room, &asking.due(3)));
}

/// Cases at each limit.
fn limits(tests: &mut Tests) {
    let rows: [(&str, Shape, u64); 7] = [
        ("64 atoms", Shape { atoms: 64, clauses: 80, ..SHAPE }, 40),
        ("256 clauses", Shape { clauses: 256, ..SHAPE }, 40),
        ("32 constraints", Shape { constraints: 32, ..SHAPE }, 40),
        ("128 nodes", Shape { nodes: 128, ..SHAPE }, 40),
        ("16 formulas", Shape { queries: QUERIES, nodes: 128, ..SHAPE }, 40),
        ("10 causes", Shape { causes: 10, clauses: 3, ..SHAPE }, 2),
        ("1 atom", Shape { atoms: 1, causes: 1, clauses: 0, constraints: 0, queries: 1, nodes: 2 }, 40),
    ];
    for (name, shape, rounds) in rows {
        tests.family(&format!("sound: {name}"));
        for seed in 0..rounds {
            let mut random = Random::new(seed);
            let case = drawn(&mut random, shape);
            let held = strewn(&mut random, &Held::of(&case));
            accepted(tests, &format!("seed {seed}"), case, &held);
        }
    }
    tests.family("sound: a formula of depth 16");
    for seed in 0..40 {
        let mut random = Random::new(seed);
        let mut case = drawn(&mut random, Shape { queries: 3, ..SHAPE });
        case.queries[seed as usize % 3] = deep(&mut random, SHAPE.atoms, 16);
        let held = strewn(&mut random, &Held::of(&case));
        accepted(tests, &format!("seed {seed}"), case, &held);
    }
}

/// Cases whose parts past the formulas hold what no formula is; with one formula more they are not sound.
fn past_the_formulas(tests: &mut Tests) {
    tests.family("sound: no formulas in the parts past the count");
    for (name, nodes, byte) in NO_FORMULAS {
        for queries in 1..QUERIES {
            let case = drawn(&mut Random::new(queries as u64), Shape { queries, ..SHAPE });
            let mut held = Held::of(&case);
            held.record[NODES + queries..EDITION].fill(nodes);
            held.formula[queries * PART_BYTES..].fill(byte);
            accepted(tests, &format!("{name}, {queries} formulas"), case, &held);
            held.record[FORMULAS] += 1;
            tests.require(&format!("{name}: not sound as a formula"), !broken(&held).is_empty());
            refused(tests, &format!("{name}, {queries} formulas and this"), &held, 13);
        }
    }
}

/// Cases whose entries past the constraints have a kind that is none; with one constraint more they are not sound.
fn past_the_constraints(tests: &mut Tests) {
    tests.family("sound: no kinds past the constraints");
    for kind in [2, 3, 256, 1 << 32, 1 << 63, u64::MAX] {
        for constraints in 0..32 {
            let case = drawn(&mut Random::new(constraints as u64), Shape { constraints, ..SHAPE });
            let mut held = Held::of(&case);
            for entry in held.constraints.chunks_exact_mut(3).skip(constraints) {
                entry.copy_from_slice(&[1, 0, kind]);
            }
            accepted(tests, &format!("kind {kind} past {constraints} constraints"), case, &held);
            held.record[2] += 1;
            tests.require("that phrase alone", broken(&held) == [Phrase::ConstraintKindListed]);
            refused(tests, &format!("kind {kind}, {constraints} constraints and this"), &held, 13);
        }
    }
}

/// All families of sound cases.
pub fn run(tests: &mut Tests) {
    limits(tests);
    past_the_formulas(tests);
    past_the_constraints(tests);
}
