//! What the question answers, with names.

use crate::Verdict;
use std::fmt;

/// The answer to a case's question.
#[derive(Clone, Debug, PartialEq, Eq)]
#[non_exhaustive]
pub struct Answer<'a> {
    /// The verdict on each query, in file order; there is at least one.
    pub verdicts: Vec<Verdict>,
    /// The rounds over all settings.
    pub rounds: u64,
    /// The decided atoms of the least models of all settings, summed.
    pub decided: u64,
    /// All minimal explanations, by rising number of their setting.
    pub explanations: Vec<Explanation<'a>>,
    /// The lowest cost among them, in cents; 0 if there is none.
    pub cost: u64,
    /// The first of them that has this cost; none if there is none. No other explanation costs less.
    pub cheapest: Option<Explanation<'a>>,
}

impl Answer<'_> {
    /// The verdict on the first query, the only one of most files.
    pub fn verdict(&self) -> Verdict {
        self.verdicts[0]
    }
}

/// A setting by name: what it adds for its causes, in atom order. Causes that it doesn't name are left unknown.
#[derive(Clone, Debug, PartialEq, Eq)]
pub struct Explanation<'a> {
    /// The setting's number.
    pub setting: u64,
    /// The causes that it makes true or false.
    pub causes: Vec<Cause<'a>>,
}

/// A cause with the value that a setting gives it.
#[derive(Clone, Copy, Debug, PartialEq, Eq)]
pub struct Cause<'a> {
    /// Its name.
    pub name: &'a str,
    /// Whether it is made true or false.
    pub value: bool,
}

/// The report's `cause` line, without its line end.
impl fmt::Display for Explanation<'_> {
    fn fmt(&self, f: &mut fmt::Formatter<'_>) -> fmt::Result {
        f.write_str("(cause")?;
        for Cause { name, value } in &self.causes {
            write!(f, " ({value} {name})")?;
        }
        f.write_str(")")
    }
}
