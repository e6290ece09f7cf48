//! The cause finder for Rust: safe calls of the operations that the proved library `embed` exports.
//!
//! | name | meaning |
//! |---|---|
//! | [`Case`] | a case read from a file; it settles a setting, answers the question, tells its layers, and is written back |
//! | [`Answer`], [`Explanation`], [`Verdict`] | what the question answers, with names and the cheapest explanation |
//! | [`Settled`] | the least model of a setting |
//! | [`Layers`], [`Layer`] | the layers of a case, or a ring of its rules, with names |
//! | [`report`], [`text`] | the text that the program `causes` writes |
//! | [`generate`] | a load: a case file that follows from a seed, a number of atoms and a number of clauses |
//! | [`Refusal`] | why an operation refuses |
//! | [`sizes`], [`stack`] | how much memory and how much stack the operations take |
//! | [`lent`], [`raw`] | the operations over lent memory, and as C has them |
//!
//! M4 of document 01:
//!
//! ```
//! let file = b"(if low shut (not ab1))
//! (if low stopped (not ab2))
//! (false ab1)
//! (false ab2)
//! (seen low)
//! (query shut)
//! ";
//! let case = causes::Case::read(file)?;
//! let answer = case.question();
//! assert_eq!(answer.verdict(), causes::Verdict::Open);
//! assert_eq!((answer.rounds, answer.decided), (15, 36));
//! let lines: Vec<String> = answer.explanations.iter().map(|e| e.to_string()).collect();
//! assert_eq!(lines, ["(cause (true shut))", "(cause (true stopped))"]);
//! # Ok::<(), causes::Refusal>(())
//! ```
//!
//! A file may put up to 16 queries; each has its verdict, in file order:
//!
//! ```
//! use causes::Verdict::{Denied, Follows, Open};
//!
//! let case = causes::Case::read(b"(true a)\n(query a)\n(query (not a))\n(query b)\n")?;
//! assert_eq!(case.question().verdicts, [Follows, Denied, Open]);
//! # Ok::<(), causes::Refusal>(())
//! ```
//!
//! With a line `(edition 2)` an assumption may be overridden: an atom whose clauses are all assumptions is a cause too,
//! with two choices, nothing or a fact.
//!
//! ```
//! let file = b"(if low shut (not ab))\n(false ab)\n(seen (not low))\n(query shut)\n(edition 2)\n";
//! let case = causes::Case::read(file)?;
//! let lines: Vec<String> = case.question().explanations.iter().map(|e| e.to_string()).collect();
//! assert_eq!(lines, ["(cause (false shut))", "(cause (true ab))"]);
//! # Ok::<(), causes::Refusal>(())
//! ```
//!
//! A file that is not lawful is refused, with a number, the line and what the number means:
//!
//! ```
//! let refusal = causes::Case::read(b"(seen low)\n(query Low)\n").unwrap_err();
//! assert_eq!(refusal, causes::Refusal::BadByte { line: 2 });
//! assert_eq!(refusal.number(), 4);
//! ```

mod answer;
mod case;
mod layers;
pub mod lent;
pub mod raw;
mod refusal;
pub mod sizes;
pub mod stack;
mod verdict;

pub use answer::{Answer, Cause, Explanation};
pub use case::{report, text, Case};
pub use layers::{Layer, Layers};
pub use lent::{generate, Settled};
pub use refusal::Refusal;
pub use verdict::Verdict;

/// The version of this module, that of the header causes.h beside it.
pub const VERSION: &str = env!("CARGO_PKG_VERSION");
