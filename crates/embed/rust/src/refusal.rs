//! Refusals.
//!
//! From: document 01, What each operation refuses; document 02, `[7]` to `[11]`; docs/MANUAL.md, Refusals.

use std::error::Error;
use std::fmt;

/// Why an operation refuses. A fault of a line has the line, counted from 1.
#[non_exhaustive]
#[derive(Clone, Copy, Debug, PartialEq, Eq, Hash)]
#[allow(missing_docs)] // `meaning` has the sentence of each
pub enum Refusal {
    ShortTable,
    LongFile,
    LongLine {
        line: u64,
    },
    BadByte {
        line: u64,
    },
    NotAForm {
        line: u64,
    },
    LongName {
        line: u64,
    },
    DeepFormula {
        line: u64,
    },
    ManyNames {
        line: u64,
    },
    ManyClauses {
        line: u64,
    },
    ManyQueries {
        line: u64,
    },
    NoQuery,
    ManyCauses,
    Unsound,
    NoSetting,
    ShortWork,
    HighPrice {
        line: u64,
    },
    SecondCost {
        line: u64,
    },
    LongText,
    ShortOutput,
    ManyLiterals {
        line: u64,
    },
    SecondEdition {
        line: u64,
    },
    NoLoad,
    ShortLoadOutput,
    /// A number that this module doesn't know: the archive is a later one.
    Other {
        number: u32,
        line: u64,
    },
}

impl Refusal {
    /// The refusal with document 01's number, at `line` where it has one.
    pub fn from_number(number: u32, line: u64) -> Refusal {
        match number {
            1 => Refusal::ShortTable,
            2 => Refusal::LongFile,
            3 => Refusal::LongLine { line },
            4 => Refusal::BadByte { line },
            5 => Refusal::NotAForm { line },
            6 => Refusal::LongName { line },
            7 => Refusal::DeepFormula { line },
            8 => Refusal::ManyNames { line },
            9 => Refusal::ManyClauses { line },
            10 => Refusal::ManyQueries { line },
            11 => Refusal::NoQuery,
            12 => Refusal::ManyCauses,
            13 => Refusal::Unsound,
            14 => Refusal::NoSetting,
            15 => Refusal::ShortWork,
            16 => Refusal::HighPrice { line },
            17 => Refusal::SecondCost { line },
            18 => Refusal::LongText,
            19 => Refusal::ShortOutput,
            20 => Refusal::ManyLiterals { line },
            21 => Refusal::SecondEdition { line },
            22 => Refusal::NoLoad,
            23 => Refusal::ShortLoadOutput,
            _ => Refusal::Other { number, line },
        }
    }

    /// The number, the line and the meaning.
    fn parts(&self) -> (u32, Option<u64>, &'static str) {
        match *self {
            Refusal::ShortTable => (1, None, "a lent table is shorter than its size"),
            Refusal::LongFile => (2, None, "the file is over 32,768 bytes"),
            Refusal::LongLine { line } => (3, Some(line), "a line that is no comment is over 200 bytes"),
            Refusal::BadByte { line } => {
                (4, Some(line), "a line that is no comment has a byte other than a to z, 0 to 9, `-`, space, `(`, `)`")
            }
            Refusal::NotAForm { line } => (5, Some(line), "the line is not one of the forms"),
            Refusal::LongName { line } => (6, Some(line), "a name is over 16 bytes"),
            Refusal::DeepFormula { line } => (7, Some(line), "the query is deeper than 16"),
            Refusal::ManyNames { line } => (8, Some(line), "the line brings a 65th name"),
            Refusal::ManyClauses { line } => (9, Some(line), "the line is the 257th clause, or the 33rd constraint"),
            Refusal::ManyQueries { line } => (10, Some(line), "the line is a 17th query"),
            Refusal::NoQuery => (11, None, "the file has no query"),
            Refusal::ManyCauses => (12, None, "the file has more than 59,049 settings"),
            Refusal::Unsound => (13, None, "the case handed in is not sound"),
            Refusal::NoSetting => (14, None, "the setting's number is not below the number of settings"),
            Refusal::ShortWork => (15, None, "the work area is shorter than one byte for each setting"),
            Refusal::HighPrice { line } => {
                (16, Some(line), "the price, or the one worked out, is over 2,000,000, or the supplement over 100")
            }
            Refusal::SecondCost { line } => (17, Some(line), "the line is a second cost line for its name"),
            Refusal::LongText => (18, None, "a line of the text would be over 200 bytes, or the text over 32,768"),
            Refusal::ShortOutput => (19, None, "the lent output is too short for the text"),
            Refusal::ManyLiterals { line } => (20, Some(line), "the line's body has a 12th literal"),
            Refusal::SecondEdition { line } => (21, Some(line), "the line is a second edition line"),
            Refusal::NoLoad => (22, None, "the load's atoms are not 1 to 64, or its clauses are over 256"),
            Refusal::ShortLoadOutput => (23, None, "the output lent for a load is shorter than its text"),
            Refusal::Other { number, line } => (number, (line > 0).then_some(line), "the library's header says why"),
        }
    }

    /// Document 01's number.
    pub fn number(&self) -> u32 {
        self.parts().0
    }

    /// The line at fault, none where no single line is.
    pub fn line(&self) -> Option<u64> {
        self.parts().1
    }

    /// What the number says, in the manual's words.
    pub fn meaning(&self) -> &'static str {
        self.parts().2
    }
}

impl fmt::Display for Refusal {
    fn fmt(&self, f: &mut fmt::Formatter<'_>) -> fmt::Result {
        let (number, line, meaning) = self.parts();
        write!(f, "refused with {number}")?;
        if let Some(line) = line {
            write!(f, " in line {line}")?;
        }
        write!(f, ": {meaning}")
    }
}

impl Error for Refusal {}
