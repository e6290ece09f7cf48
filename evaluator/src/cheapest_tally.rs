//! How many generated files have a cost, and how many would have another lowest cost or cheapest setting under a wrong
//! reading of what costs.
//!
//! From: document 02, [7].

use crate::answer::{Asked, LIST_SLOTS};
use crate::case::Case;
use crate::cause::{digits, Choice};
use crate::cost::{cost, Cheapest};
use crate::formula::UNKNOWN;
use crate::question::Findings;
use std::cmp::Reverse;

/// What holds of a file: the words, and whether it does where this is found.
type Row = (&'static str, fn(&Case, &Findings) -> bool);

/// A wrong reading: the words, and what it answers to a case of which this is found.
type Misreading = (&'static str, fn(&Case, &Findings) -> Cheapest);

/// What is to be met beside the wrong readings.
const ROWS: [Row; 3] = [
    ("a lowest cost above 0", |_, found| found.cheapest.cost > 0),
    ("several explanations of the lowest cost above 0", |case, found| {
        let lowest = |s: &&usize| cost_by(case, found, **s) == found.cheapest.cost;
        found.cheapest.cost > 0 && found.minimal.iter().filter(lowest).count() > 1
    }),
    ("the cheapest explanation is not the first", |_, found| found.minimal.iter().any(|s| *s < found.cheapest.setting)),
];

/// The wrong readings: of the setting that is answered, of the explanations, of the sum.
const MISREADINGS: [Misreading; 21] = [
    ("other cheapest with the last of the lowest cost", |case, found| {
        first(&found.minimal, |s| cost_by(case, found, s), |cost, s| (cost, Reverse(s)))
    }),
    ("other cheapest with the highest cost", |case, found| {
        first(&found.minimal, |s| cost_by(case, found, s), |cost, _| Reverse(cost))
    }),
    ("other cheapest with the first explanation", |case, found| {
        first(&found.minimal, |s| cost_by(case, found, s), |_, s| s)
    }),
    ("other cheapest with the last explanation", |case, found| {
        first(&found.minimal, |s| cost_by(case, found, s), |_, s| Reverse(s))
    }),
    ("other cheapest with the fewest causes", |case, found| {
        first(&found.minimal, |s| cost_by(case, found, s), |_, s| chosen(found, s).len())
    }),
    ("other cheapest with the place in the list", |_, found| {
        let place = found.minimal.iter().position(|s| *s == found.cheapest.setting);
        Cheapest { setting: place.unwrap_or(0), ..found.cheapest }
    }),
    ("other cheapest with listed explanations only", |case, found| {
        lowest(&found.minimal[..found.minimal.len().min(LIST_SLOTS)], |s| cost_by(case, found, s))
    }),
    ("other cheapest with the last of all explanations", |case, found| {
        first(&explaining(found), |s| cost_by(case, found, s), |cost, s| (cost, Reverse(s)))
    }),
    ("other cheapest with all settings", |case, found| lowest(&every(found), |s| cost_by(case, found, s))),
    ("other cheapest with settings above 0", |case, found| lowest(&every(found)[1..], |s| cost_by(case, found, s))),
    ("other cheapest with causes that have a price only", |case, found| {
        let has_prices = |s: &usize| chosen(found, *s).iter().all(|atom| case.prices[*atom] > 0);
        lowest(&found.minimal.iter().copied().filter(has_prices).collect::<Vec<_>>(), |s| cost_by(case, found, s))
    }),
    ("other cheapest with assumptions for nothing", |case, found| {
        lowest(&found.minimal, |s| weighed(case, found, s, |choice| u64::from(choice == Choice::Fact)))
    }),
    ("other cheapest with facts for nothing", |case, found| {
        lowest(&found.minimal, |s| weighed(case, found, s, |choice| u64::from(choice == Choice::Assumption)))
    }),
    ("other cheapest with assumptions twice", |case, found| {
        lowest(&found.minimal, |s| weighed(case, found, s, |choice| choice as u64))
    }),
    ("other cheapest with causes that are not chosen", |case, found| {
        lowest(&found.minimal, |s| weighed(case, found, s, |choice| u64::from(choice == Choice::Nothing)))
    }),
    ("other cheapest with all decided atoms", |case, found| {
        let decided = |s: usize| (0..case.names.len()).filter(move |a| found.settled[s].model[*a] != UNKNOWN);
        lowest(&found.minimal, |s| decided(s).map(|a| u64::from(case.prices[a])).sum())
    }),
    ("other cheapest with prices by the causes' places", |case, found| {
        let prices: Vec<u64> = case.prices[..found.causes.len()].iter().map(|p| u64::from(*p)).collect();
        lowest(&found.minimal, |s| cost(s, &found.causes, &prices))
    }),
    ("other cheapest with the dearest cause only", |case, found| {
        lowest(&found.minimal, |s| prices(case, found, s).into_iter().max().unwrap_or(0))
    }),
    ("other cheapest with the first cause only", |case, found| {
        lowest(&found.minimal, |s| prices(case, found, s).first().copied().unwrap_or(0))
    }),
    ("other cheapest with the number of causes", |_, found| lowest(&found.minimal, |s| chosen(found, s).len() as u64)),
    ("other cheapest with costs modulo 65,536", |case, found| {
        lowest(&found.minimal, |s| cost_by(case, found, s) % 65_536)
    }),
];

/// The atoms of all causes, with what the setting `s` gives them.
fn given(found: &Findings, s: usize) -> impl Iterator<Item = (usize, Choice)> + '_ {
    found.causes.iter().zip(digits(s, &found.causes)).map(|(cause, digit)| (cause.atom, cause.choices[digit]))
}

/// The atoms of the causes that the setting `s` gives something.
fn chosen(found: &Findings, s: usize) -> Vec<usize> {
    given(found, s).filter(|(_, choice)| *choice != Choice::Nothing).map(|(atom, _)| atom).collect()
}

/// The prices of the causes that the setting `s` gives something.
fn prices(case: &Case, found: &Findings, s: usize) -> Vec<u64> {
    chosen(found, s).iter().map(|atom| u64::from(case.prices[*atom])).collect()
}

/// What the setting `s` costs by the prices of `case`.
pub fn cost_by(case: &Case, found: &Findings, s: usize) -> u64 {
    prices(case, found, s).iter().sum()
}

/// What the setting `s` costs where a cause counts as often as `times` says of what it is given.
fn weighed(case: &Case, found: &Findings, s: usize, times: impl Fn(Choice) -> u64) -> u64 {
    given(found, s).map(|(atom, choice)| times(choice) * u64::from(case.prices[atom])).sum()
}

/// Every setting, by number.
fn every(found: &Findings) -> Vec<usize> {
    (0..found.explains.len()).collect()
}

/// Every setting that explains, by number.
fn explaining(found: &Findings) -> Vec<usize> {
    every(found).into_iter().filter(|s| found.explains[*s]).collect()
}

/// Of `settings` the one whose cost by `cost` and number come first by `key`, with its cost; both 0 if there is none.
fn first<K: Ord>(settings: &[usize], cost: impl Fn(usize) -> u64, key: impl Fn(u64, usize) -> K) -> Cheapest {
    let all = settings.iter().map(|s| Cheapest { cost: cost(*s), setting: *s });
    all.min_by_key(|c| key(c.cost, c.setting)).unwrap_or_default()
}

/// Of `settings` the first of the lowest cost by `cost`.
pub fn lowest(settings: &[usize], cost: impl Fn(usize) -> u64) -> Cheapest {
    first(settings, cost, |cost, s| (cost, s))
}

/// The words of each thing that is counted.
pub fn words() -> impl Iterator<Item = &'static str> {
    ROWS.iter().map(|(what, _)| *what).chain(MISREADINGS.iter().map(|(what, _)| *what))
}

/// Which of the things that are counted hold of a file that gets `asked`; none of one that is refused.
pub fn met(asked: &Asked) -> Vec<bool> {
    let Ok((case, found)) = asked else { return vec![false; words().count()] };
    let rows = ROWS.iter().map(|(_, holds)| holds(case, found));
    rows.chain(MISREADINGS.iter().map(|(_, other)| other(case, found) != found.cheapest)).collect()
}
