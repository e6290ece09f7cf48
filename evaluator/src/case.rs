//! What a case file says, with atoms as numbers.
//!
//! From: document 01, Interpretations and the step; document 02, [7], [10].

use crate::cause::{causes, Cause, Edition};
use crate::constraint::Constraint;
use crate::formula::{Formula, Literal};

/// The body of a clause: that of a fact, that of an assumption, or the literals of a rule.
#[derive(Clone)]
pub enum Body {
    True,
    False,
    All(Vec<Literal<usize>>),
}

/// A clause: its head and its body.
#[derive(Clone)]
pub struct Clause {
    pub head: usize,
    pub body: Body,
}

/// A case: names and prices by atom number; clauses, constraints, observations and queries in file order; its edition.
#[derive(Clone)]
pub struct Case {
    pub names: Vec<String>,
    pub clauses: Vec<Clause>,
    pub constraints: Vec<Constraint>,
    pub observations: Vec<Literal<usize>>,
    pub queries: Vec<Formula<usize>>,
    pub prices: Vec<u32>,
    pub edition: Edition,
}

impl Case {
    /// The causes of this case.
    pub fn causes(&self) -> Vec<Cause> {
        causes(self.edition, self.names.len(), &self.clauses)
    }
}
