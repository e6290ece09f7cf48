//! Verdicts.
//!
//! From: document 01, The question.

use std::fmt;

/// The verdict on a query.
#[derive(Clone, Copy, Debug, PartialEq, Eq, Hash)]
pub enum Verdict {
    /// No setting explains the readings.
    Unexplained,
    /// The query is true under each minimal explanation.
    Follows,
    /// The query is false under each minimal explanation.
    Denied,
    /// None of the others.
    Open,
}

impl Verdict {
    /// The verdict of document 01's number.
    pub fn from_number(number: u64) -> Option<Verdict> {
        match number {
            0 => Some(Verdict::Unexplained),
            1 => Some(Verdict::Follows),
            2 => Some(Verdict::Denied),
            3 => Some(Verdict::Open),
            _ => None,
        }
    }
}

/// The word of the report.
impl fmt::Display for Verdict {
    fn fmt(&self, f: &mut fmt::Formatter<'_>) -> fmt::Result {
        f.write_str(match self {
            Verdict::Unexplained => "unexplained",
            Verdict::Follows => "follows",
            Verdict::Denied => "denied",
            Verdict::Open => "open",
        })
    }
}
