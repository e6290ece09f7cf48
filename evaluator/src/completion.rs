//! The weak completion, and the search for its models among all interpretations.
//!
//! From: document 01, Interpretations and the step.
//!
//! | name | meaning |
//! |---|---|
//! | `Completion` | the equivalence of each defined atom |
//! | `is_model` | whether every equivalence is true |
//! | `loosened` | an atom that can be made unknown in a model |
//! | `search_order` | the atoms so that equivalences are complete early |
//! | `contained_in_all` | whether an interpretation is contained in every model, by going through them |

use crate::formula::{Formula, Value, FALSE, TRUE, UNKNOWN};
use crate::model::is_contained;

/// For each atom its equivalence, none if it has no clauses.
pub struct Completion {
    pub equivalences: Vec<Option<Formula<usize>>>,
}

/// The atoms in an order, each with the equivalences that have all their atoms from there on.
pub struct SearchOrder {
    steps: Vec<(usize, Vec<usize>)>,
}

/// A search through all models: what it is held to, the interpretation so far and the tries left.
struct Search<'a> {
    completion: &'a Completion,
    order: &'a SearchOrder,
    held: &'a [Value],
    so_far: Vec<Value>,
    tries: usize,
}

impl Completion {
    /// Whether the equivalence of `a` is true in `i`; one that there is not is.
    fn holds(&self, a: usize, i: &[Value]) -> bool {
        self.equivalences[a].as_ref().is_none_or(|e| e.value(i) == TRUE)
    }

    /// Whether `i` is a model.
    pub fn is_model(&self, i: &[Value]) -> bool {
        (0..i.len()).all(|a| self.holds(a, i))
    }

    /// An atom decided in the model `i` that can be made unknown without `i` ceasing to be a model, if there is one.
    pub fn loosened(&self, i: &[Value]) -> Option<usize> {
        let mut j = i.to_vec();
        (0..i.len()).filter(|a| i[*a] != UNKNOWN).find(|a| {
            j[*a] = UNKNOWN;
            let found = self.holds(*a, &j) && self.is_model(&j);
            j[*a] = i[*a];
            found
        })
    }

    /// About how many values a search in `order` tries: each equivalence leaves one of three values of one atom.
    fn tries_due(&self, order: &SearchOrder) -> f64 {
        let (mut partial, mut due) = (1.0, 0.0);
        for (_, complete) in &order.steps {
            due += 3.0 * partial;
            let left = complete.iter().filter(|a| self.equivalences[**a].is_some()).count();
            partial *= 3f64.powi(1 - left as i32);
        }
        due
    }

    /// Whether `i` is contained in every model, found by trying all interpretations; none if that would take over
    /// `tries` values tried. A partial interpretation in which a complete equivalence isn't true is not taken further.
    pub fn contained_in_all(&self, i: &[Value], order: &SearchOrder, tries: usize) -> Option<bool> {
        if self.tries_due(order) > tries as f64 {
            return None;
        }
        let mut search = Search { completion: self, order, held: i, so_far: vec![UNKNOWN; i.len()], tries };
        search.from(0)
    }
}

impl Search<'_> {
    /// Whether `held` is contained in every model that agrees with the interpretation before step `at`; none if the
    /// tries run out.
    fn from(&mut self, at: usize) -> Option<bool> {
        let Some((atom, complete)) = self.order.steps.get(at) else {
            return Some(is_contained(self.held, &self.so_far));
        };
        for v in [FALSE, UNKNOWN, TRUE] {
            self.tries = self.tries.checked_sub(1)?;
            self.so_far[*atom] = v;
            if complete.iter().all(|a| self.completion.holds(*a, &self.so_far)) && !self.from(at + 1)? {
                return Some(false);
            }
        }
        Some(true)
    }
}

/// The atoms of each of `equivalences`, the defined atom included.
fn atoms_of(equivalences: &[Option<Formula<usize>>]) -> Vec<Vec<usize>> {
    equivalences.iter().map(|e| e.iter().flat_map(|f| f.atoms()).copied().collect()).collect()
}

/// The order in which the equivalence that lacks fewest atoms comes next. Causes may get other equivalences, which have
/// no other atom.
pub fn search_order(equivalences: &[Option<Formula<usize>>]) -> SearchOrder {
    let named = atoms_of(equivalences);
    let mut placed: Vec<bool> = vec![false; named.len()];
    let mut closed: Vec<bool> = named.iter().map(|atoms| atoms.is_empty()).collect();
    let mut steps: Vec<(usize, Vec<usize>)> = Vec::new();
    loop {
        let lacking = |a: &usize| named[*a].iter().filter(|b| !placed[**b]).count();
        let Some(next) = (0..named.len()).filter(|a| !closed[*a]).min_by_key(lacking) else { break };
        for b in &named[next] {
            if !placed[*b] {
                placed[*b] = true;
                steps.push((*b, if named[*b].is_empty() { vec![*b] } else { Vec::new() }));
            }
        }
        closed[next] = true;
        steps.last_mut().expect("a step").1.push(next);
    }
    steps.extend((0..named.len()).filter(|a| !placed[*a]).map(|a| (a, vec![a])));
    SearchOrder { steps }
}
