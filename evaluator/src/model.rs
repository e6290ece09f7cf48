//! A program's step, its iterates, and its weak completion.
//!
//! From: document 01, Interpretations and the step; document 02, [6].
//!
//! | name | meaning |
//! |---|---|
//! | `Program` | the bodies of each atom |
//! | `Stepped`, `step` | one application of the step, with the number of atoms that it newly decided |
//! | `Settled`, `settle` | the settled interpretation, with the number of atoms that each round newly decided |
//! | `settle_within` | the same after some rounds, settled or not |
//! | `equivalence` | the weak completion's equivalence for an atom |
//! | `is_contained` | the order of interpretations |
//! | `mask` | an interpretation's word of true atoms, or of false ones |

use crate::case::{Body, Clause};
use crate::formula::{Connective, Formula, Value, FALSE, TRUE, UNKNOWN};

/// A program: for each atom the bodies of its clauses.
pub struct Program {
    pub bodies: Vec<Vec<Body>>,
}

/// What one application of the step gives: the new interpretation, and the number of atoms that it newly decided.
pub struct Stepped {
    pub next: Vec<Value>,
    pub newly: u64,
}

/// A settled interpretation, and for each round from nothing decided the number of atoms that it newly decided.
#[derive(Clone)]
pub struct Settled {
    pub model: Vec<Value>,
    pub newly: Vec<u64>,
}

impl Settled {
    /// The round count.
    pub fn rounds(&self) -> u64 {
        self.newly.len() as u64
    }

    /// The sum of what each round newly decided.
    pub fn decided(&self) -> u64 {
        self.newly.iter().sum()
    }
}

impl Body {
    /// The value of this body in `i`: the least of its literals.
    fn value(&self, i: &[Value]) -> Value {
        match self {
            Body::True => TRUE,
            Body::False => FALSE,
            Body::All(literals) => literals.iter().map(|l| l.value(i)).min().unwrap_or(TRUE),
        }
    }

    /// This body as a formula.
    fn formula(&self) -> Formula<usize> {
        match self {
            Body::True => Formula::True,
            Body::False => Formula::False,
            Body::All(literals) => literals
                .iter()
                .map(|l| l.formula())
                .reduce(|f, g| Formula::two(Connective::And, f, g))
                .unwrap_or(Formula::True),
        }
    }
}

impl Program {
    /// The program of `atoms` atoms with the given clauses.
    pub fn new(atoms: usize, clauses: Vec<Clause>) -> Program {
        let mut bodies: Vec<Vec<Body>> = (0..atoms).map(|_| Vec::new()).collect();
        for clause in clauses {
            bodies[clause.head].push(clause.body);
        }
        Program { bodies }
    }

    /// The interpretation after `i`, in which an atom gets the greatest value of its bodies, unknown if it has none;
    /// and the number of atoms that are undecided in `i` and decided after it.
    pub fn step(&self, i: &[Value]) -> Stepped {
        let value = |bodies: &Vec<Body>| bodies.iter().map(|b| b.value(i)).max().unwrap_or(UNKNOWN);
        let next: Vec<Value> = self.bodies.iter().map(value).collect();
        let newly = i.iter().zip(&next).filter(|(before, after)| **before == UNKNOWN && **after != UNKNOWN).count();
        Stepped { next, newly: newly as u64 }
    }

    /// The settled interpretation, with as many rounds as the least k for which k and k + 1 of them from nothing
    /// decided give the same.
    pub fn settle(&self) -> Settled {
        self.settle_within(u64::MAX)
    }

    /// The same after at most `cap` rounds.
    ///
    /// Panics if a round that changes something takes a decision back or newly decides nothing, or if the sum of what
    /// the rounds newly decided is not the count of ones in the words of true and of false atoms.
    pub fn settle_within(&self, cap: u64) -> Settled {
        let mut settled = Settled { model: vec![UNKNOWN; self.bodies.len()], newly: Vec::new() };
        while settled.rounds() < cap {
            let Stepped { next, newly } = self.step(&settled.model);
            if next == settled.model {
                assert!(newly == 0, "a round that changes nothing decides an atom");
                break;
            }
            assert!(is_contained(&settled.model, &next), "a round takes a decision back");
            assert!(newly > 0, "a round that changes something decides no atom");
            settled.model = next;
            settled.newly.push(newly);
        }
        let ones = mask(&settled.model, TRUE).count_ones() + mask(&settled.model, FALSE).count_ones();
        assert!(settled.decided() == u64::from(ones), "the sum over the rounds is not the number of decided atoms");
        settled
    }

    /// The weak completion's equivalence for the atom `a`, none if it has no clauses.
    pub fn equivalence(&self, a: usize) -> Option<Formula<usize>> {
        let bodies = self.bodies[a].iter().map(|b| b.formula());
        let joined = bodies.reduce(|f, g| Formula::two(Connective::Or, f, g))?;
        Some(Formula::two(Connective::Same, Formula::Atom(a), joined))
    }
}

/// Whether what `i` decides is decided alike in `j`.
pub fn is_contained(i: &[Value], j: &[Value]) -> bool {
    i.iter().zip(j).all(|(v, w)| *v == UNKNOWN || v == w)
}

/// The atoms with the value `value` in `i`, bit a for atom a.
pub fn mask(i: &[Value], value: Value) -> u64 {
    i.iter().enumerate().filter(|(_, v)| **v == value).fold(0, |word, (a, _)| word | 1 << a)
}
