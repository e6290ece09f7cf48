//! Families of causes of two choices beside those of three: settings in mixed base, work areas and the limit on
//! settings, worked out by hand.
//!
//! From: document 02, [10].

use crate::calls::{question, settle, QuestionDue, Room, ASKED_WORDS, SETTLED_WORDS};
use crate::drawn::strewn;
use crate::due::{unasked, Settling};
use crate::held::{padded, Held, QUERIES};
use crate::limits::accepted;
use crate::sound::{broken, Phrase};
use crate::tests::Tests;
use crate::unsound::refused;
use evaluator::case::{Body, Case, Clause};
use evaluator::cause::Edition;
use evaluator::formula::Formula;
use evaluator::random::Random;

/// How many causes of three and of two choices a sound case has.
const FEW: [(usize, usize); 18] = [
    (1, 0),
    (0, 1),
    (1, 1),
    (0, 2),
    (2, 1),
    (1, 2),
    (5, 0),
    (0, 4),
    (3, 3),
    (2, 5),
    (10, 0),
    (9, 1),
    (8, 3),
    (6, 6),
    (4, 9),
    (3, 11),
    (1, 14),
    (0, 15),
];

/// The same of cases with too many settings; the products of the last eight pass 64 bits, 2 to the 64th is 0 in them.
const MANY: [(usize, usize); 22] = [
    (11, 0),
    (10, 1),
    (9, 2),
    (8, 4),
    (7, 5),
    (6, 7),
    (5, 8),
    (4, 10),
    (3, 12),
    (2, 13),
    (1, 15),
    (0, 16),
    (0, 17),
    (0, 63),
    (0, 64),
    (1, 63),
    (63, 1),
    (64, 0),
    (32, 32),
    (24, 40),
    (40, 24),
    (41, 0),
];

/// The choices by atom, for `threes` causes of three choices and `twos` of two: the first threes, the first twos, or in
/// turn, and with an atom that is no cause in front where there is room.
fn orders(threes: usize, twos: usize) -> Vec<Vec<u64>> {
    let (three, two) = (vec![3; threes], vec![2; twos]);
    let both = threes.min(twos);
    let turns = [[2, 3].repeat(both), three[both..].to_vec(), two[both..].to_vec()].concat();
    let mut orders = vec![[three.clone(), two.clone()].concat(), [two, three].concat(), turns];
    if threes + twos < 64 {
        orders.extend(orders.clone().into_iter().map(|order| [vec![1], order].concat()));
    }
    orders.dedup();
    orders
}

/// The case of edition 2 whose atoms have the choices `choices`: three without a clause, two with assumptions, every
/// third with two of them, one with a fact and an assumption.
fn mixed(choices: &[u64]) -> Case {
    let bodies = |atom: usize| match choices[atom] {
        3 => vec![],
        2 if atom % 3 == 0 => vec![Body::False, Body::False],
        2 => vec![Body::False],
        _ => vec![Body::True, Body::False],
    };
    let clauses = (0..choices.len()).flat_map(|head| bodies(head).into_iter().map(move |body| Clause { head, body }));
    Case {
        names: (0..choices.len()).map(|atom| format!("n{atom}")).collect(),
        clauses: clauses.collect(),
        constraints: Vec::new(),
        observations: Vec::new(),
        queries: vec![Formula::Atom(0)],
        prices: vec![0; choices.len()],
        edition: Edition::Second,
    }
}

/// What the setting `s` of such a case settles to in one round, or in none where nothing is decided.
fn settled(choices: &[u64], s: u64) -> [u64; SETTLED_WORDS] {
    let (mut trues, mut falses, mut rest) = (0, 0, s);
    for (atom, choices) in choices.iter().enumerate() {
        let digit = rest % choices;
        rest /= choices;
        match (choices, digit) {
            (1, _) | (_, 1) => trues |= 1 << atom,
            (2, _) | (_, 2) => falses |= 1 << atom,
            _ => (),
        }
    }
    let decided = u64::from(u64::count_ones(trues | falses));
    [trues, falses, decided.min(1), decided]
}

/// What the question of such a case, with a list of `slots` slots, is due: every setting explains, so only the lowest
/// is minimal, in which the first atom is unknown, false or true.
fn every_setting_explains(choices: &[u64], slots: usize) -> QuestionDue {
    let end: u64 = choices.iter().product();
    let decided: u64 = choices.iter().map(|choices| if *choices == 3 { end / 3 * 2 } else { end }).sum();
    let rounds = end - u64::from(choices.iter().all(|choices| *choices == 3));
    let verdict = [1, 2, 3][choices[0] as usize - 1];
    let listed = slots.min(1);
    let counts = [1, listed as u64, rounds, decided, 0, 0];
    QuestionDue {
        refusal: 0,
        answer: [padded(vec![verdict], QUERIES), counts.to_vec()].concat(),
        list: vec![0; listed],
        work: [vec![2], vec![1; end as usize - 1]].concat(),
    }
}

/// Settings of cases with few settings, and those from the product on.
fn settings(tests: &mut Tests) {
    tests.family("settle: settings in mixed base, by hand");
    for choices in FEW.into_iter().flat_map(|(threes, twos)| orders(threes, twos)) {
        let held = Held::of(&mixed(&choices));
        let mut settling = Settling::of(mixed(&choices));
        let end: u64 = choices.iter().product();
        tests.require(&format!("{choices:?}: the evaluator's settings"), settling.settings() == end);
        let mut random = Random::new(end);
        for s in [0, 1 % end, 2 % end, end / 2, end - 1]
            .into_iter()
            .chain((0..12).map(|_| random.below(end as usize) as u64))
        {
            let due = settled(&choices, s);
            tests.require(&format!("{choices:?}, {s}: the evaluator's words"), settling.words(s) == due);
            tests.call(|| format!("{choices:?}, setting {s}"), settle(&held, s, SETTLED_WORDS, (0, &due)));
        }
    }
    tests.family("settle: settings from the product on");
    for choices in FEW.into_iter().flat_map(|(threes, twos)| orders(threes, twos)) {
        let held = strewn(&mut Random::new(1), &Held::of(&mixed(&choices)));
        let end: u64 = choices.iter().product();
        let all_three = 3u64.pow(choices.iter().filter(|choices| **choices > 1).count() as u32);
        let past = [end, end + 1, 2 * end, all_three, 59_049, 65_536, 1 << 32, (1 << 32) + end - 1, 1 << 63, u64::MAX];
        for s in past.into_iter().filter(|s| *s >= end) {
            let due = (14, &[0; SETTLED_WORDS][..]);
            tests.call(|| format!("{choices:?}, setting {s}"), settle(&held, s, SETTLED_WORDS + 1, due));
        }
    }
}

/// Work areas of as many bytes as there are settings, of more, of one less and of far less.
fn work_areas(tests: &mut Tests) {
    tests.family("question: work areas around the product, by hand");
    for choices in FEW.into_iter().flat_map(|(threes, twos)| orders(threes, twos)) {
        let held = strewn(&mut Random::new(2), &Held::of(&mixed(&choices)));
        let end = choices.iter().product::<u64>() as usize;
        for (list, more) in [(0, 0), (1, 7), (3, 1)] {
            let room = Room { list, work: end + more, answer: ASKED_WORDS };
            let due = every_setting_explains(&choices, list);
            tests.call(|| format!("{choices:?}, {room:?}"), question(&held, room, &due));
        }
        for work in [end - 1, end / 2, 0] {
            let room = Room { list: 1, work, answer: ASKED_WORDS };
            tests.call(|| format!("{choices:?}, {room:?}"), question(&held, room, &unasked(15)));
        }
    }
}

/// Cases with too many settings, which are so in edition 2 alone where few of the causes have three choices.
fn too_many(tests: &mut Tests) {
    tests.family("unsound: more than 59,049 settings");
    for choices in MANY.into_iter().flat_map(|(threes, twos)| orders(threes, twos)) {
        let case = mixed(&choices);
        let held = strewn(&mut Random::new(3), &Held::of(&case));
        tests.require(&format!("{choices:?}: that phrase alone"), broken(&held) == [Phrase::SettingCount]);
        refused(tests, &format!("{choices:?}"), &held);
        for s in [1, u64::MAX] {
            let due = (13, &[0; SETTLED_WORDS][..]);
            tests.call(|| format!("{choices:?}, setting {s}"), settle(&held, s, SETTLED_WORDS, due));
        }
        for work in [0, 59_049, 70_000] {
            let room = Room { list: 1, work, answer: ASKED_WORDS };
            tests.call(|| format!("{choices:?}, {room:?}"), question(&held, room, &unasked(13)));
        }
    }
    tests.family("sound: the same in edition 1");
    for choices in MANY.into_iter().filter(|(threes, _)| *threes < 5).flat_map(|(threes, twos)| orders(threes, twos)) {
        let case = Case { edition: Edition::First, ..mixed(&choices) };
        let held = strewn(&mut Random::new(4), &Held::of(&case));
        tests.require(&format!("{choices:?}: no phrase"), broken(&held).is_empty());
        accepted(tests, &format!("{choices:?}"), case, &held);
    }
}

/// All families of causes of two choices, by hand.
pub fn run(tests: &mut Tests) {
    settings(tests);
    work_areas(tests);
    too_many(tests);
}
