//! Families of chains: each atom follows from the one before it, so that each round decides one atom more and each
//! layer has one atom.

use crate::calls::{layers, settle, LayersDue, LAYERS_WORDS, SETTLED_WORDS};
use crate::due::{Layering, Settling};
use crate::held::Held;
use crate::tests::Tests;
use evaluator::case::{Body, Case, Clause};
use evaluator::cause::Edition;
use evaluator::formula::{Formula, Literal};

/// A chain of `atoms` links, the first of which is the lowest atom or, in a falling chain, the highest. The others are
/// heads of rules over the link before, which may be negated there.
#[derive(Clone, Copy, Debug)]
struct Chain {
    atoms: usize,
    falling: bool,
    negated: bool,
}

impl Chain {
    /// The atom of the link `link`.
    fn atom(&self, link: usize) -> usize {
        if self.falling {
            self.atoms - 1 - link
        } else {
            link
        }
    }

    /// The case in which the first link has the body `first`, or none and is a cause.
    fn case(&self, first: Option<Body>) -> Case {
        let rule = |link| {
            let before = Literal { atom: self.atom(link - 1), negated: self.negated };
            Clause { head: self.atom(link), body: Body::All(vec![before]) }
        };
        let first = first.map(|body| Clause { head: self.atom(0), body });
        Case {
            names: (0..self.atoms).map(|i| format!("n{i}")).collect(),
            clauses: first.into_iter().chain((1..self.atoms).map(rule)).collect(),
            constraints: Vec::new(),
            observations: Vec::new(),
            queries: vec![Formula::Atom(0)],
            prices: vec![0; self.atoms],
            edition: Edition::First,
        }
    }

    /// The true atoms, the false atoms, the rounds and the number of decided atoms where the first link is true, false
    /// or unknown.
    fn due(&self, first: Option<bool>) -> [u64; SETTLED_WORDS] {
        let Some(first) = first else { return [0; SETTLED_WORDS] };
        let mut due = [0, 0, self.atoms as u64, self.atoms as u64];
        for link in 0..self.atoms {
            let swapped = self.negated && link % 2 == 1;
            due[usize::from(first == swapped)] |= 1 << self.atom(link);
        }
        due
    }
}

/// Settles the settings of `chain`, whose first link has the body `first`, and the one past the last; `values` are the
/// values of the first link by setting.
fn settings(tests: &mut Tests, chain: Chain, first: Option<Body>, values: &[Option<bool>]) {
    let case = chain.case(first);
    let held = Held::of(&case);
    let mut settling = Settling::of(case);
    for (s, value) in (0..).zip(values) {
        let due = chain.due(*value);
        tests.require(&format!("{chain:?}, setting {s}: the evaluator's words"), settling.words(s) == due);
        tests.call(|| format!("{chain:?}, setting {s}, {value:?}"), settle(&held, s, SETTLED_WORDS, (0, &due)));
    }
    let past = values.len() as u64;
    tests.call(|| format!("{chain:?}, setting {past}"), settle(&held, past, SETTLED_WORDS, (14, &[0; SETTLED_WORDS])));
}

/// The layers of `chain`, whose first link has the body `first`: the number of each link is its place.
fn numbers(tests: &mut Tests, chain: Chain, first: Option<Body>) {
    let case = chain.case(first);
    let layering = Layering::of(&case);
    let mut due = vec![0; chain.atoms];
    (0..chain.atoms).for_each(|link| due[chain.atom(link)] = link as u64);
    tests.require(&format!("{chain:?}: the evaluator's numbers"), layering.numbers == Some(due));
    let complaints = layers(&Held::of(&case), LAYERS_WORDS, &LayersDue::Told(&layering));
    tests.call(|| format!("{chain:?}, layers"), complaints);
}

/// The layers of `chain`, whose first link follows from the link `last`: those up to it are the only ring.
fn ring(tests: &mut Tests, chain: Chain, last: usize) {
    let body = Body::All(vec![Literal { atom: chain.atom(last), negated: chain.negated }]);
    let case = chain.case(Some(body));
    let layering = Layering::of(&case);
    let due: Vec<u64> = (0..=last).rev().map(|link| chain.atom(link) as u64).collect();
    tests.require(&format!("{chain:?}, link {last}: the evaluator's ring"), layering.ring_complaint(&due).is_none());
    let complaints = layers(&Held::of(&case), LAYERS_WORDS, &LayersDue::Told(&layering));
    tests.call(|| format!("{chain:?}, a ring up to the link {last}"), complaints);
}

/// The chains of 1 to 64 atoms.
fn chains() -> impl Iterator<Item = Chain> {
    let kinds = [(false, false), (false, true), (true, false), (true, true)];
    (1..=64).flat_map(move |atoms| kinds.map(|(falling, negated)| Chain { atoms, falling, negated }))
}

/// The families of chains of 1 to 64 atoms.
pub fn run(tests: &mut Tests) {
    tests.family("settle: chains of 1 to 64 atoms");
    for chain in chains() {
        settings(tests, chain, Some(Body::True), &[Some(true)]);
        settings(tests, chain, Some(Body::False), &[Some(false)]);
        settings(tests, chain, None, &[None, Some(true), Some(false)]);
    }
    tests.family("layers: chains of 1 to 64 atoms");
    for chain in chains() {
        for first in [Some(Body::True), Some(Body::False), None] {
            numbers(tests, chain, first);
        }
    }
    tests.family("layers: chains of 1 to 64 atoms with a ring");
    for chain in chains() {
        let mut lasts = vec![0, chain.atoms / 2, chain.atoms - 1];
        lasts.dedup();
        for last in lasts.into_iter().filter(|last| *last < chain.atoms) {
            ring(tests, chain, last);
        }
    }
}
