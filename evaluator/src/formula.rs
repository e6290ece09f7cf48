//! Formulas and their values under Łukasiewicz logic.
//!
//! From: document 01, Formulas.
//!
//! | name | meaning |
//! |---|---|
//! | `Value` | a truth value by its rank |
//! | `Connective` | "and", "or", "then", "same" |
//! | `Formula` | a formula over atoms of any type, with constants for the bodies of facts and assumptions |
//! | `Literal` | an atom or its negation |

/// A truth value by its rank: 0 false, 1 unknown, 2 true.
pub type Value = i8;

pub const FALSE: Value = 0;
pub const UNKNOWN: Value = 1;
pub const TRUE: Value = 2;

/// A connective of two operands.
#[derive(Clone, Copy)]
pub enum Connective {
    And,
    Or,
    Then,
    Same,
}

/// A formula over atoms of type `A`.
#[derive(Clone)]
pub enum Formula<A> {
    True,
    False,
    Atom(A),
    Not(Box<Formula<A>>),
    Two(Connective, Box<Formula<A>>, Box<Formula<A>>),
}

/// The atom `atom`, or its negation.
#[derive(Clone, PartialEq)]
pub struct Literal<A> {
    pub atom: A,
    pub negated: bool,
}

/// The value of "not": the rank counted from the other end.
pub fn negation(v: Value) -> Value {
    TRUE - v
}

/// Łukasiewicz's "then": true up to the right side's rank, one rank less for each rank that the left side is above it.
pub fn implication(v: Value, w: Value) -> Value {
    TRUE.min(TRUE - v + w)
}

impl Connective {
    /// The value that this connective gives over the values `v` and `w`.
    fn of(self, v: Value, w: Value) -> Value {
        match self {
            Connective::And => v.min(w),
            Connective::Or => v.max(w),
            Connective::Then => implication(v, w),
            Connective::Same => implication(v, w).min(implication(w, v)),
        }
    }
}

impl Literal<usize> {
    /// The value of this literal in the interpretation `i`.
    pub fn value(&self, i: &[Value]) -> Value {
        if self.negated {
            negation(i[self.atom])
        } else {
            i[self.atom]
        }
    }

    /// This literal as a formula.
    pub fn formula(&self) -> Formula<usize> {
        if self.negated {
            Formula::Not(Box::new(Formula::Atom(self.atom)))
        } else {
            Formula::Atom(self.atom)
        }
    }
}

impl Formula<usize> {
    /// The value of this formula in the interpretation `i`.
    pub fn value(&self, i: &[Value]) -> Value {
        match self {
            Formula::True => TRUE,
            Formula::False => FALSE,
            Formula::Atom(a) => i[*a],
            Formula::Not(f) => negation(f.value(i)),
            Formula::Two(c, f, g) => c.of(f.value(i), g.value(i)),
        }
    }
}

impl<A> Formula<A> {
    /// The formula of the connective `c` over `f` and `g`.
    pub fn two(c: Connective, f: Formula<A>, g: Formula<A>) -> Formula<A> {
        Formula::Two(c, Box::new(f), Box::new(g))
    }

    /// The depth of this formula: 1 for an atom, one more than the deepest operand for a form.
    pub fn depth(&self) -> usize {
        match self {
            Formula::True | Formula::False | Formula::Atom(_) => 1,
            Formula::Not(f) => 1 + f.depth(),
            Formula::Two(_, f, g) => 1 + f.depth().max(g.depth()),
        }
    }

    /// The atoms of this formula from left to right, with repeats.
    pub fn atoms(&self) -> Vec<&A> {
        match self {
            Formula::True | Formula::False => Vec::new(),
            Formula::Atom(a) => vec![a],
            Formula::Not(f) => f.atoms(),
            Formula::Two(_, f, g) => [f.atoms(), g.atoms()].concat(),
        }
    }

    /// This formula with `rename` applied to each atom.
    pub fn map<B>(&self, rename: &dyn Fn(&A) -> B) -> Formula<B> {
        match self {
            Formula::True => Formula::True,
            Formula::False => Formula::False,
            Formula::Atom(a) => Formula::Atom(rename(a)),
            Formula::Not(f) => Formula::Not(Box::new(f.map(rename))),
            Formula::Two(c, f, g) => Formula::two(*c, f.map(rename), g.map(rename)),
        }
    }
}
