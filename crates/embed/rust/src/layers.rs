//! The layers of a case, or a ring of its rules, with names.
//!
//! From: document 02, [3].

/// What depends on what: a case is layered if its atoms can be numbered so that each head's number is greater than that
/// of every atom in its bodies, plain or negated. Else its rules run in a ring.
#[derive(Clone, Debug, PartialEq, Eq)]
pub enum Layers<'a> {
    /// The least number of each atom, in atom order.
    Numbers(Vec<Layer<'a>>),
    /// The names of a ring, all different: each stands in a body of the one before, the first in a body of the last.
    /// Which ring it is may change with the version.
    Ring(Vec<&'a str>),
}

/// An atom with its number.
#[derive(Clone, Copy, Debug, PartialEq, Eq)]
pub struct Layer<'a> {
    /// Its name.
    pub name: &'a str,
    /// The least number that it can have; 0 for an atom that heads no rule.
    pub number: u64,
}
