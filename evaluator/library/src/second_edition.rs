//! Families of cases of edition 2: questions whose answers the papers have, prices, and drawn cases.
//!
//! From: document 02, [10].

use crate::asking::{asked, Met};
use crate::calls::{layers, question, LayersDue, Room, ASKED_WORDS, CHEAPEST, COST, DECIDED, LAYERS_WORDS, ROUNDS};
use crate::drawn::{second, small};
use crate::due::{Asking, Layering};
use crate::held::Held;
use crate::settling::case_settings;
use crate::tests::Tests;
use crate::writing::{lengths, strewn_names};
use evaluator::case::{Body, Case, Clause};
use evaluator::cause::parts;
use evaluator::file;
use evaluator::formula::Literal;
use evaluator::random::Random;

/// A file of edition 2, its list, its rounds, its decided atoms and the number of the verdict on its query.
type Answered = (&'static str, &'static [u16], u64, u64, u64);

/// M1, the example of document 02, and others of these papers.
const ANSWERED: [Answered; 6] = [
    ("(if low shut (not ab))\n(false ab)\n(seen low)\n(query shut)\n", &[1], 11, 15, 1),
    ("(false x)\n(false y)\n(if o x y)\n(if o (not x) (not y))\n(seen o)\n(query o)\n", &[0], 8, 12, 1),
    ("(false x)\n(if o (not x))\n(seen o)\n(query x)\n", &[0], 4, 4, 2),
    (
        "(false x)\n(false y)\n(false z)\n(if o x y)\n(if o (not x) (not y) (not z))\n(seen o)\n(query z)\n",
        &[0],
        16,
        32,
        2,
    ),
    ("(if o c x)\n(false x)\n(seen o)\n(query x)\n", &[4], 11, 15, 1),
    ("(false b)\n(query a)\n(atom c)\n(false d)\n(if o a b)\n(if o (not c) d)\n(seen o)\n", &[3, 30], 63, 147, 3),
];

/// Questions with answers by hand, the edition line first and last.
fn questions(tests: &mut Tests) {
    tests.family("question: edition 2, answers by hand");
    for (file, list, rounds, decided, verdict) in ANSWERED {
        for file in [format!("(edition 2)\n{file}"), format!("{file}(edition 2)")] {
            let case = file::read(file.as_bytes()).unwrap_or_else(|r| panic!("refused with {}", r.number));
            let held = Held::of(&case);
            let asking = Asking::of(case);
            let due = asking.due(4);
            let own = (due.list.as_slice(), due.answer[ROUNDS], due.answer[DECIDED], asking.verdicts());
            tests.require(&format!("{file:?}: the evaluator's answer"), own == (list, rounds, decided, vec![verdict]));
            let room = Room { list: 4, work: asking.settings(), answer: ASKED_WORDS };
            tests.call(|| format!("{file:?}"), question(&held, room, &due));
        }
    }
}

/// Up to eight atoms of assumptions alone, each of which explains where it is overridden, and so by setting 2^i; their
/// prices are those of the others but for one, and an atom that is not overridden costs nothing.
fn prices(tests: &mut Tests) {
    tests.family("question: prices of overridden assumptions, by hand");
    for causes in [1, 2, 5, 8] {
        let lines: String = (0..causes).map(|i| format!("(false c{i})\n(if low c{i})\n")).collect();
        let file = format!("{lines}(seen low)\n(query low)\n(edition 2)\n");
        for (first, others) in [(0, 0), (7, 8), (8, 7), (1, u32::MAX), (u32::MAX, 1)] {
            let mut case = file::read(file.as_bytes()).unwrap_or_else(|r| panic!("refused with {}", r.number));
            let last = case.names.iter().position(|name| *name == format!("c{}", causes - 1)).expect("a cause");
            case.prices.fill(others);
            case.prices[last] = first;
            let (held, asking) = (Held::of(&case), Asking::of(case));
            let is_last = first < others || causes == 1;
            let due = asking.due(8);
            let cheapest = if is_last { 1 << (causes - 1) } else { 1 };
            let own = (due.answer[COST], due.answer[CHEAPEST], asking.minimal());
            let cost = u64::from(if is_last { first } else { others });
            tests.require(&format!("{causes} at {first}, {others}: the evaluator's"), own == (cost, cheapest, causes));
            let room = Room { list: 8, work: asking.settings(), answer: ASKED_WORDS };
            tests.call(|| format!("{causes}, the last at {first}, others at {others}"), question(&held, room, &due));
        }
    }
}

/// Whether some setting explains and is not minimal though none that is smaller by one cause explains.
fn skips_a_subset(case: &Case) -> bool {
    let (work, causes) = (Asking::of(case.clone()).due(0).work, case.causes());
    (0..work.len()).any(|s| work[s] == 1 && parts(s, &causes).into_iter().all(|part| work[s - part] == 0))
}

/// `case` with an atom more, which is seen, and which all causes of two choices bring if overridden, or none of them.
fn all_or_none(mut case: Case) -> Case {
    let twos: Vec<usize> = case.causes().iter().filter(|c| c.choices.len() == 2).map(|c| c.atom).collect();
    let head = case.names.len();
    let rule = |negated| {
        let literals = twos.iter().map(|atom| Literal { atom: *atom, negated }).collect();
        Clause { head, body: Body::All(literals) }
    };
    if !twos.is_empty() {
        case.names.push(format!("n{head}"));
        case.prices.push(0);
        case.clauses.extend([rule(false), rule(true)]);
        case.observations.push(Literal { atom: head, negated: false });
    }
    case
}

/// Drawn cases, with garbage past the counts: settled, asked, layered and written.
fn drawn_cases(tests: &mut Tests) {
    let case = |seed: u64| {
        let mut random = Random::new(seed);
        let shape = small(&mut random);
        let drawn = second(&mut random, shape, 162);
        let case = if seed % 3 == 0 { all_or_none(drawn) } else { drawn };
        let held = strewn_names(&mut random, &Held::of(&case));
        (case, held)
    };
    tests.family("settle: drawn cases of edition 2");
    for seed in 0..600 {
        let (case, held) = case(seed);
        case_settings(tests, &format!("seed {seed}"), case, &held);
    }
    tests.family("question: drawn cases of edition 2");
    let (mut met, mut skipped) = (Met::default(), 0);
    for seed in 0..1_000 {
        let (case, held) = case(seed);
        skipped += usize::from(skips_a_subset(&case));
        asked(tests, &format!("seed {seed}"), case, &held, &mut met);
    }
    met.require(tests);
    tests.require("subsets that are smaller by several causes", skipped > 20);
    tests.family("layers, write: drawn cases of edition 2");
    for seed in 0..400 {
        let (case, held) = case(seed);
        let layering = Layering::of(&case);
        tests.call(|| format!("seed {seed}, layers"), layers(&held, LAYERS_WORDS, &LayersDue::Told(&layering)));
        lengths(tests, &format!("seed {seed}"), &held);
    }
}

/// All families of cases of edition 2.
pub fn run(tests: &mut Tests) {
    questions(tests);
    prices(tests);
    drawn_cases(tests);
}
