//! What the lines of a file read so far say, and the case that they give.
//!
//! From: document 01, The file; document 02, [5], [7], [8], [10].

use crate::case::{Body, Case, Clause};
use crate::cause::Edition;
use crate::constraint::Constraint;
use crate::file::{CLAUSES, CONSTRAINTS};
use crate::form::Form;
use crate::formula::{Formula, Literal};

/// An edition line: its edition, and how many clauses stand before it.
#[derive(Clone, Copy)]
pub struct EditionLine {
    pub edition: Edition,
    pub clauses: usize,
}

/// What the lines read so far say; the atom and the price of each cost line.
#[derive(Default)]
pub struct Reading {
    pub names: Vec<String>,
    clauses: Vec<Clause>,
    constraints: Vec<Constraint>,
    observations: Vec<Literal<usize>>,
    pub queries: Vec<Formula<usize>>,
    costs: Vec<(usize, u32)>,
    pub editions: Vec<EditionLine>,
}

impl Reading {
    /// Takes those of `names` that are not named yet for names of atoms.
    pub fn name(&mut self, names: Vec<&String>) {
        for name in names {
            if !self.names.contains(name) {
                self.names.push(name.clone());
            }
        }
    }

    /// Whether `said` would be a clause or a constraint past the limit.
    pub fn is_full_for(&self, said: &Form) -> bool {
        match said {
            Form::Fact(_) | Form::Assumption(_) | Form::Rule(..) => self.clauses.len() == CLAUSES,
            Form::Constraint(..) => self.constraints.len() == CONSTRAINTS,
            Form::Atom(_) | Form::Seen(_) | Form::Query(_) | Form::Cost(..) | Form::Edition(_) => false,
        }
    }

    /// The number of the atom `name`, if it was named before.
    fn named(&self, name: &str) -> Option<usize> {
        self.names.iter().position(|n| n == name)
    }

    /// The number of the atom `name`, which was named before.
    fn atom(&self, name: &str) -> usize {
        self.named(name).expect("a name of the file")
    }

    /// The prices that the cost lines of `name` give.
    pub fn prices_of(&self, name: &str) -> Vec<u32> {
        self.costs.iter().filter(|(atom, _)| Some(*atom) == self.named(name)).map(|(_, price)| *price).collect()
    }

    /// How many literals the bodies read so far have.
    pub fn literals(&self) -> usize {
        let rules = self.clauses.iter().map(|clause| match &clause.body {
            Body::All(body) => body.len(),
            Body::True | Body::False => 0,
        });
        rules.chain(self.constraints.iter().map(|c| c.body.len())).sum()
    }

    /// How many observations are read so far.
    pub fn readings(&self) -> usize {
        self.observations.len()
    }

    /// The literals of `body` with atoms as numbers.
    fn numbered(&self, body: &[Literal<String>]) -> Vec<Literal<usize>> {
        body.iter().map(|l| Literal { atom: self.atom(&l.atom), negated: l.negated }).collect()
    }

    /// Adds what `said` says, with prices by `price`.
    pub fn add(&mut self, said: Form, price: fn(u64, u64) -> u64) {
        let clause = |head, body| Clause { head, body };
        match said {
            Form::Atom(_) => (),
            Form::Fact(n) => self.clauses.push(clause(self.atom(&n), Body::True)),
            Form::Assumption(n) => self.clauses.push(clause(self.atom(&n), Body::False)),
            Form::Rule(n, body) => self.clauses.push(clause(self.atom(&n), Body::All(self.numbered(&body)))),
            Form::Constraint(kind, body) => self.constraints.push(Constraint { kind, body: self.numbered(&body) }),
            Form::Seen(l) => self.observations.extend(self.numbered(&[l])),
            Form::Query(f) => self.queries.push(f.map(&|n| self.atom(n))),
            Form::Cost(n, cents, per_cent) => {
                self.costs.extend(self.named(&n).map(|atom| (atom, price(cents, per_cent) as u32)));
            }
            Form::Edition(edition) => self.editions.push(EditionLine { edition, clauses: self.clauses.len() }),
        }
    }

    /// The case that all lines give in the edition `edition`.
    pub fn case(self, edition: Edition) -> Case {
        let mut prices = vec![0; self.names.len()];
        self.costs.iter().for_each(|(atom, price)| prices[*atom] = *price);
        Case {
            names: self.names,
            clauses: self.clauses,
            constraints: self.constraints,
            observations: self.observations,
            queries: self.queries,
            prices,
            edition,
        }
    }
}
