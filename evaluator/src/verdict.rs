//! The verdict on a query.
//!
//! From: document 01, The question; The program `causes`.

use crate::formula::{Value, FALSE, TRUE};

/// The verdict on a query, by document 01's number.
#[derive(Clone, Copy, PartialEq, Debug)]
pub enum Verdict {
    Unexplained = 0,
    Follows = 1,
    Denied = 2,
    Open = 3,
}

/// Every verdict, in the order of the numbers.
pub const VERDICTS: [Verdict; 4] = [Verdict::Unexplained, Verdict::Follows, Verdict::Denied, Verdict::Open];

impl Verdict {
    /// The verdict where a query has the values `values` under the minimal explanations.
    pub fn of(values: &[Value]) -> Verdict {
        if values.is_empty() {
            Verdict::Unexplained
        } else if values.iter().all(|v| *v == TRUE) {
            Verdict::Follows
        } else if values.iter().all(|v| *v == FALSE) {
            Verdict::Denied
        } else {
            Verdict::Open
        }
    }

    /// Document 01's number of this verdict.
    pub fn number(self) -> u64 {
        self as u64
    }

    /// The word for this verdict in a report.
    pub fn word(self) -> &'static str {
        match self {
            Verdict::Unexplained => "unexplained",
            Verdict::Follows => "follows",
            Verdict::Denied => "denied",
            Verdict::Open => "open",
        }
    }
}
