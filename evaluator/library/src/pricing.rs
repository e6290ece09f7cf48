//! Families of prices: what a cost line gives and the cheapest of the minimal explanations, worked out by hand, and
//! drawn prices lent with generated files.
//!
//! From: document 02, [7].

use crate::asking::several;
use crate::calls::{question, read, Room, Sizes, ASKED_WORDS, CHEAPEST, COST};
use crate::corpus::generated;
use crate::drawn::{prices, strewn};
use crate::due::{self, Asking};
use crate::held::{Held, ATOMS};
use crate::tests::Tests;
use evaluator::case::Case;
use evaluator::file;
use evaluator::random::Random;

/// The seeds of the generated files that are asked with drawn prices.
const SEEDS: u64 = 1_200;

/// The two numbers of a cost line, and the price that they give.
const LINES: [(&str, &str, u32); 20] = [
    ("0", "0", 0),
    ("0", "100", 0),
    ("1", "0", 1),
    ("1", "49", 1),
    ("1", "50", 2),
    ("3", "16", 3),
    ("3", "17", 4),
    ("49", "1", 49),
    ("50", "1", 51),
    ("149", "1", 150),
    ("150", "1", 152),
    ("999", "50", 1_499),
    ("1050", "33", 1_397),
    ("0000007", "0000100", 14),
    ("999999", "100", 1_999_998),
    ("1000000", "100", 2_000_000),
    ("2000000", "0", 2_000_000),
    ("1333333", "50", 2_000_000),
    ("1000001", "99", 1_990_002),
    ("1980198", "1", 2_000_000),
];

/// Reads a cost line for each atom of a file with 64, alone and behind one for the first atom.
fn lines(tests: &mut Tests) {
    tests.family("read: prices by hand");
    let front: String = (0..ATOMS).map(|atom| format!("(true n{atom})\n")).collect::<String>() + "(query n0)\n";
    for (cents, supplement, price) in LINES {
        for atom in 0..ATOMS {
            let line = format!("(cost n{atom} {cents} {supplement})\n");
            let other = if atom == 0 { "" } else { "(cost n0 5 0)\n" };
            for before in ["", other] {
                let mut due = due::read(front.as_bytes());
                let held = due.tables.as_mut().expect("a file that is read");
                held.prices[0] = if before.is_empty() { 0 } else { 5 };
                held.prices[atom] = price;
                let file = front.clone() + before + &line;
                tests.require(&format!("{line:?}: the evaluator's prices"), due::read(file.as_bytes()) == due);
                tests.call(|| format!("{before:?}, {line:?}"), read(file.as_bytes(), Sizes::FULL, false, &due));
            }
        }
    }
}

/// A case with the lowest cost among its minimal explanations, the setting that has it, and how many there are.
struct Priced {
    case: Case,
    cost: u64,
    cheapest: u64,
    minimal: usize,
}

/// The case of `file`, with the prices `prices` by name.
fn priced(file: &str, prices: impl Fn(&str) -> u32) -> Case {
    let case = file::read(file.as_bytes()).unwrap_or_else(|r| panic!("refused with {}", r.number));
    Case { prices: case.names.iter().map(|name| prices(name)).collect(), ..case }
}

/// Asks the question of `priced` with lists of 0 slots, of 1, of one too few, and of enough.
fn asked(tests: &mut Tests, what: &str, priced: Priced) {
    let held = strewn(&mut Random::new(priced.cost), &Held::of(&priced.case));
    let asking = Asking::of(priced.case);
    let own = asking.due(0).answer;
    let due = (priced.cost, priced.cheapest, priced.minimal);
    tests.require(&format!("{what}: the evaluator's cheapest"), (own[COST], own[CHEAPEST], asking.minimal()) == due);
    let mut lists = vec![0, 1, priced.minimal.saturating_sub(1), priced.minimal];
    lists.dedup();
    for list in lists {
        let room = Room { list, work: asking.settings(), answer: ASKED_WORDS };
        tests.call(|| format!("{what}, {room:?}"), question(&held, room, &asking.due(list)));
    }
}

/// Ten causes and fewer that must all be decided, each at the same price: every minimal explanation costs the sum, and
/// the lowest has a fact for each. The others' prices are no part of it.
fn sums(tests: &mut Tests) {
    tests.family("question: sums past 32 bits, by hand");
    for causes in 1..=10 {
        for price in [1, 1 << 31, u32::MAX] {
            let case = priced(&several(causes), |name| if name.starts_with('c') { price } else { u32::MAX });
            let cost = causes as u64 * u64::from(price);
            let cheapest = (3u64.pow(causes as u32) - 1) / 2;
            asked(tests, &format!("{causes} at {price}"), Priced { case, cost, cheapest, minimal: 1 << causes });
        }
    }
}

/// A file with `causes` causes, each of which explains by itself: as a fact, so setting 3^i for cause i.
fn each_alone(causes: usize) -> String {
    let rules: String = (0..causes).map(|i| format!("(if low c{i})\n")).collect();
    rules + "(seen low)\n(query c0)\n"
}

/// Causes that explain each by itself, all at one price but for two, which may be the same one: the first of the
/// cheapest counts.
fn ties(tests: &mut Tests) {
    tests.family("question: ties and the cheapest of several, by hand");
    for causes in 1..=5 {
        for (i, j) in (0..causes).flat_map(|i| (i..causes).map(move |j| (i, j))) {
            for (lower, other) in [(0, 0), (0, 1), (7, 7), (7, 9), (u32::MAX - 1, u32::MAX)] {
                let price = |name: &str| match name.strip_prefix('c') {
                    Some(at) if [i, j].contains(&at.parse().expect("a cause's number")) => lower,
                    Some(_) => other,
                    None => 0,
                };
                let first = if lower == other { 0 } else { i };
                asked(
                    tests,
                    &format!("{causes} causes, {i} and {j} at {lower}, the others at {other}"),
                    Priced {
                        case: priced(&each_alone(causes), price),
                        cost: u64::from(lower),
                        cheapest: 3u64.pow(first as u32),
                        minimal: causes,
                    },
                );
            }
        }
    }
}

/// Assumptions cost as facts do: causes that must all be false.
fn assumptions(tests: &mut Tests) {
    tests.family("question: assumptions cost as facts, by hand");
    for causes in 1..=6 {
        let seen: String = (0..causes).map(|i| format!("(seen (not c{i}))\n")).collect();
        let case = priced(&(seen + "(query c0)\n"), |name| 10u32.pow(name[1..].parse().expect("a cause's number")));
        let cost = (10u64.pow(causes as u32) - 1) / 9;
        let cheapest = 3u64.pow(causes as u32) - 1;
        asked(tests, &format!("{causes} assumptions"), Priced { case, cost, cheapest, minimal: 1 });
    }
}

/// Nothing costs 0 where nothing explains, and so does the empty explanation, whatever the prices are.
fn zeros(tests: &mut Tests) {
    tests.family("question: cost 0 and setting 0, by hand");
    for price in [0, 1, u32::MAX] {
        let unexplained = priced("(seen a)\n(seen (not a))\n(query a)\n", |_| price);
        asked(tests, "unexplained", Priced { case: unexplained, cost: 0, cheapest: 0, minimal: 0 });
        let empty = priced("(query a)\n(query b)\n", |_| price);
        asked(tests, "the empty explanation", Priced { case: empty, cost: 0, cheapest: 0, minimal: 1 });
    }
}

/// Generated files with drawn prices in the place of their own.
fn drawn_prices(tests: &mut Tests) {
    tests.family("question: generated files, drawn prices");
    let (mut past, mut unlisted) = (0, 0);
    for (at, input) in generated(SEEDS, |s| s % 2 == 0 && s % 20 != 0).iter().enumerate() {
        let Ok(said) = file::read(&input.bytes) else { continue };
        let mut random = Random::new(at as u64);
        let case = Case { prices: prices(&mut random, said.names.len()), ..said };
        let held = strewn(&mut random, &Held::of(&case));
        let asking = Asking::of(case);
        let due = asking.due(1);
        past += usize::from(due.answer[COST] > u64::from(u32::MAX));
        unlisted += usize::from(due.list.first().is_some_and(|first| u64::from(*first) != due.answer[CHEAPEST]));
        let room = Room { list: 1, work: asking.settings(), answer: ASKED_WORDS };
        tests.call(|| format!("{}, {room:?}", input.name), question(&held, room, &due));
    }
    tests.require("costs past 32 bits, and a cheapest that is not listed", past > 3 && unlisted > 3);
}

/// All families of prices.
pub fn run(tests: &mut Tests) {
    lines(tests);
    sums(tests);
    ties(tests);
    assumptions(tests);
    zeros(tests);
    drawn_prices(tests);
}
