//! Constraints: their kinds, and when one is met.
//!
//! From: document 01, Causes, settings, explanations; document 02, [5].
//!
//! | name | meaning |
//! |---|---|
//! | `Kind` | what a constraint asks of its body |
//! | `Constraint` | a kind and the literals of a body |
//! | `Constraint::is_met` | whether it is met in an interpretation |

use crate::formula::{implication, Literal, Value, FALSE, TRUE, UNKNOWN};

/// What a constraint asks of its body, by the table's number: `never` that it is false, `avoid` that it is not true.
#[derive(Clone, Copy, PartialEq, Debug)]
pub enum Kind {
    Never = 0,
    Avoid = 1,
}

/// Every kind, in the order of the numbers.
pub const KINDS: [Kind; 2] = [Kind::Never, Kind::Avoid];

/// A constraint: its kind and the literals of its body.
#[derive(Clone, PartialEq)]
pub struct Constraint {
    pub kind: Kind,
    pub body: Vec<Literal<usize>>,
}

impl Kind {
    /// The number of this kind in a table.
    pub fn number(self) -> u64 {
        self as u64
    }

    /// The kind with the number `number`, if there is one.
    pub fn of(number: u64) -> Option<Kind> {
        KINDS.into_iter().find(|kind| kind.number() == number)
    }

    /// The form's word of this kind.
    pub fn word(self) -> &'static str {
        match self {
            Kind::Never => "never",
            Kind::Avoid => "avoid",
        }
    }

    /// The head that stands before the body where it is written as a rule: "false" in document 003, "unknown" in 000.
    fn head(self) -> Value {
        match self {
            Kind::Never => FALSE,
            Kind::Avoid => UNKNOWN,
        }
    }
}

impl Constraint {
    /// Whether this constraint is met in the interpretation `i`.
    ///
    /// Panics if it is met by its literals and not as a rule, or the other way about.
    pub fn is_met(&self, i: &[Value]) -> bool {
        let values: Vec<Value> = self.body.iter().map(|l| l.value(i)).collect();
        let met = match self.kind {
            Kind::Never => values.contains(&FALSE),
            Kind::Avoid => values.iter().any(|v| *v != TRUE),
        };
        let body = values.into_iter().min().unwrap_or(TRUE);
        let rule = implication(body, self.kind.head());
        assert!(met == (rule == TRUE), "a constraint is met by its literals or as a rule, and not both");
        met
    }
}
