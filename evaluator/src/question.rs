//! The question: which settings explain, which of these are minimal, the verdict on each query, what settling adds up
//! to, and the cheapest explanation.
//!
//! From: document 01, Causes, settings, explanations; The question; document 02, [1], [5], [6], [7], [10].
//!
//! | name | meaning |
//! |---|---|
//! | `Judged` | what is found of a set |
//! | `Engine` | a case ready to have sets added |
//! | `Findings` | the question's answer |
//! | `ask` | the answer, by one walk for all queries and by one for each |
//! | `ask_with` | the same with other causes |

use crate::case::{Body, Case};
use crate::cause::{digits, every_setting, minimal, settings, Cause, Choice};
use crate::completion::{search_order, Completion, SearchOrder};
use crate::constraint::Constraint;
use crate::cost::{cheapest, Cheapest};
use crate::formula::{Formula, Literal, Value, FALSE, TRUE, UNKNOWN};
use crate::model::{Program, Settled};
pub use crate::verdict::Verdict;

/// The values tried in the search for the models of a setting: so many over all settings of a case, and no fewer than
/// `LEAST_TRIES` for each.
const TRIES: usize = 100_000;
const LEAST_TRIES: usize = 500;

/// The most sets that are all judged where nothing explains: those of 5 causes without clauses.
const TRIED_SETS: u128 = 1_024;

/// What is found of a set: whether it explains, the value of each query and what it settles to.
struct Judged {
    explains: bool,
    queries: Vec<Value>,
    settled: Settled,
}

/// The question's answer: whether each setting explains, every minimal one in rising order, the rounds and the decided
/// atoms over all settings, the verdict on each query, and the cheapest of the minimal ones; what each setting settles
/// to, and in how many of them every model was gone through.
pub struct Findings {
    pub causes: Vec<Cause>,
    pub explains: Vec<bool>,
    pub minimal: Vec<usize>,
    pub rounds: u64,
    pub decided: u64,
    pub verdicts: Vec<Verdict>,
    pub cheapest: Cheapest,
    pub settled: Vec<Settled>,
    pub searched: usize,
}

/// A case taken apart: its program, its weak completion, its causes with the bodies that they have without a set and
/// with their prices, what is asked of it, and in how many of the settled sets every model was gone through. A cap on
/// the rounds is for showing what goes wrong with one; what is settled is not held to the definition where another walk
/// has done so.
pub struct Engine {
    program: Program,
    completion: Completion,
    order: SearchOrder,
    tries: usize,
    cap: Option<u64>,
    held: bool,
    pub searched: usize,
    pub causes: Vec<Cause>,
    bodies: Vec<Vec<Body>>,
    constraints: Vec<Constraint>,
    observations: Vec<Literal<usize>>,
    queries: Vec<Formula<usize>>,
    prices: Vec<u64>,
}

impl Engine {
    /// The engine of `case`.
    pub fn new(case: Case) -> Engine {
        let causes = case.causes();
        Engine::with(case, causes)
    }

    /// The engine of `case` with `causes` for its causes.
    fn with(case: Case, causes: Vec<Cause>) -> Engine {
        let atoms = case.names.len();
        let program = Program::new(atoms, case.clauses);
        let equivalences: Vec<_> = (0..atoms).map(|a| program.equivalence(a)).collect();
        let order = search_order(&equivalences);
        let completion = Completion { equivalences };
        let tries = LEAST_TRIES.max(TRIES / settings(&causes) as usize);
        let bodies = causes.iter().map(|cause| program.bodies[cause.atom].clone()).collect();
        let prices = causes.iter().map(|cause| u64::from(case.prices[cause.atom])).collect();
        let Case { constraints, observations, queries, .. } = case;
        Engine {
            program,
            completion,
            order,
            tries,
            cap: None,
            held: true,
            searched: 0,
            causes,
            bodies,
            constraints,
            observations,
            queries,
            prices,
        }
    }

    /// What the program with the choices `set` added settles to: its least model.
    fn settle(&mut self, set: &[Choice]) -> Settled {
        for ((cause, bodies), choice) in self.causes.iter().zip(&self.bodies).zip(set) {
            self.program.bodies[cause.atom] = [bodies.as_slice(), &choice.bodies()].concat();
            self.completion.equivalences[cause.atom] = self.program.equivalence(cause.atom);
        }
        if let Some(cap) = self.cap {
            return self.program.settle_within(cap);
        }
        let settled = self.program.settle();
        if self.held {
            self.hold(&settled.model);
        }
        settled
    }

    /// Holds the settled interpretation to the definition of the least model.
    ///
    /// Panics if it is no model of the weak completion, or has a decided atom that can be made unknown, or is not
    /// contained in another model that is found.
    fn hold(&mut self, settled: &[Value]) {
        assert!(self.completion.is_model(settled), "the settled interpretation is no model");
        assert!(self.completion.loosened(settled).is_none(), "a decided atom can be made unknown");
        let least = self.completion.contained_in_all(settled, &self.order, self.tries);
        assert!(least != Some(false), "the settled model is not the least");
        self.searched += usize::from(least.is_some());
    }

    /// What the setting `s` settles to.
    pub fn settle_setting(&mut self, s: usize) -> Settled {
        let set: Vec<Choice> = self.causes.iter().zip(digits(s, &self.causes)).map(|(c, d)| c.choices[d]).collect();
        self.settle(&set)
    }

    /// What is found of the set `set`.
    fn judge(&mut self, set: &[Choice]) -> Judged {
        let settled = self.settle(set);
        let model = &settled.model;
        let observed = self.observations.iter().all(|l| l.value(model) == TRUE);
        let met = self.constraints.iter().all(|c| c.is_met(model));
        let queries = self.queries.iter().map(|query| query.value(model)).collect();
        Judged { explains: observed && met, queries, settled }
    }

    /// What is found of every set that gives each of the causes one of its choices in `causes`, by number.
    fn judge_all(&mut self, causes: &[Cause]) -> Vec<Judged> {
        let set = |digits: Vec<usize>| causes.iter().zip(digits).map(|(c, d)| c.choices[d]).collect::<Vec<_>>();
        every_setting(causes).into_iter().map(|digits| self.judge(&set(digits))).collect()
    }
}

/// The answer to the question on `case`.
///
/// Panics if nothing is found to explain where a set with both a fact and an assumption does, or if a query gets
/// another answer in a case of its own.
pub fn ask(case: Case) -> Findings {
    let found = findings(Engine::new(case.clone()));
    if case.queries.len() > 1 {
        for (query, verdict) in case.queries.iter().zip(&found.verdicts) {
            let own = ask_alone(&case, query);
            assert!(own.verdicts == [*verdict], "a query gets another verdict in a case of its own");
            assert!(own.rounds == found.rounds, "the rounds are others in a case with one of the queries");
            assert!(own.decided == found.decided, "the decided atoms are others in a case with one of the queries");
            assert!(own.minimal == found.minimal, "the minimal settings are others in a case with one of the queries");
            assert!(own.cheapest == found.cheapest, "the cheapest is another in a case with one of the queries");
        }
    }
    found
}

/// The answer to the question on `case`, in which what is settled is not held to the definition.
pub fn ask_unheld(case: Case) -> Findings {
    findings(Engine { held: false, ..Engine::new(case) })
}

/// The answer of a walk that takes `causes` for the causes of `case`.
pub fn ask_with(case: Case, causes: Vec<Cause>) -> Findings {
    findings(Engine { held: false, ..Engine::with(case, causes) })
}

/// The answer to the question on `case` with `query` as its one query, all atoms kept.
fn ask_alone(case: &Case, query: &Formula<usize>) -> Findings {
    ask_unheld(Case { queries: vec![query.clone()], ..case.clone() })
}

/// The wrong answer of a walk that ends each setting after `cap` rounds; its own count of rounds says nothing.
pub fn ask_capped(case: Case, cap: u64) -> Findings {
    findings(Engine { cap: Some(cap), ..Engine::new(case) })
}

/// The decided atoms over all settings, by what each round of each of them newly decided.
///
/// Panics if they are others by atom, that is, by the settings in which each is decided.
fn decided_total(settled: &[Settled]) -> u64 {
    let total = settled.iter().map(|s| s.decided()).sum();
    let times = |atom: usize| settled.iter().filter(|s| s.model[atom] != UNKNOWN).count();
    let by_atom: usize = (0..settled[0].model.len()).map(times).sum();
    assert!(by_atom as u64 == total, "the decided atoms are others by round and by atom");
    total
}

/// Holds what the settings of `causes` settle to: each cause is true in its share of them, one of as many as it has
/// choices, and false in as many.
///
/// Panics if one is not.
fn hold_shares(settled: &[Settled], causes: &[Cause]) {
    for Cause { atom, choices } in causes {
        let times = |value: Value| settled.iter().filter(|s| s.model[*atom] == value).count();
        let has_share = |value: Value| choices.len() * times(value) == settled.len();
        assert!(has_share(TRUE) && has_share(FALSE), "a cause is not decided in its share of the settings");
    }
}

/// What `engine` finds over all settings.
fn findings(mut engine: Engine) -> Findings {
    let causes = engine.causes.clone();
    let judged = engine.judge_all(&causes);
    let searched = engine.searched;
    let explains: Vec<bool> = judged.iter().map(|j| j.explains).collect();
    let minimal = minimal(&causes, &explains);
    let sets: Vec<Cause> = causes.iter().map(|cause| cause.in_sets()).collect();
    if engine.held && minimal.is_empty() && settings(&sets) <= TRIED_SETS {
        assert!(engine.judge_all(&sets).iter().all(|j| !j.explains), "a set explains and no setting does");
    }
    let values = |query: usize| minimal.iter().map(|s| judged[*s].queries[query]).collect::<Vec<_>>();
    let verdicts = (0..engine.queries.len()).map(|query| Verdict::of(&values(query))).collect();
    let settled: Vec<Settled> = judged.into_iter().map(|j| j.settled).collect();
    if engine.held {
        hold_shares(&settled, &causes);
    }
    let rounds = settled.iter().map(|s| s.rounds()).sum();
    let decided = decided_total(&settled);
    let cheapest = cheapest(&minimal, &explains, &causes, &engine.prices);
    Findings { causes, explains, minimal, rounds, decided, verdicts, cheapest, settled, searched }
}
