//! The operations over memory that the caller lends: tables, a list, a work area, an output.
//!
//! A record and tables may come from [`read`] or be filled by the caller; what is no sound case is refused.
//!
//! ```
//! use causes::lent::{question, read, Tables};
//!
//! let mut tables = Tables::new();
//! let record = read(b"(query (then a a))\n(query a)", &mut tables)?;
//! let (mut list, mut work) = ([0; 16], vec![0; causes::sizes::SETTINGS]);
//! let answer = question(&record, &tables, &mut list, &mut work)?;
//! assert_eq!(answer.verdicts(), [causes::Verdict::Follows, causes::Verdict::Open]);
//! assert_eq!(list[..answer.listed], [0]);
//! # Ok::<(), causes::Refusal>(())
//! ```
//!
//! The layers of a case, or a ring of its rules, by atom:
//!
//! ```
//! use causes::lent::{layers, read, Tables};
//!
//! let mut tables = Tables::new();
//! let record = read(b"(if a (not b))\n(if b c)\n(query a)", &mut tables)?;
//! assert_eq!(layers(&record, &tables)?.numbers(), Some(&[2, 1, 0][..]));
//! let record = read(b"(if a (not a))\n(query a)", &mut tables)?;
//! assert_eq!(layers(&record, &tables)?.ring(), Some(&[0][..]));
//! # Ok::<(), causes::Refusal>(())
//! ```
//!
//! A case written back as a file, whose bytes the caller lends:
//!
//! ```
//! use causes::lent::{read, write, Tables};
//!
//! let mut tables = Tables::new();
//! let record = read(b"(query ( and a  b ))", &mut tables)?;
//! let mut out = [0; causes::sizes::FILE_BYTES];
//! let length = write(&record, &tables, &mut out)?;
//! assert_eq!(out[..length], *b"(atom a)\n(atom b)\n(query(and a b))\n");
//! # Ok::<(), causes::Refusal>(())
//! ```
//!
//! A load, a case file that follows from a seed, with 3 atoms and 4 clauses:
//!
//! ```
//! let mut out = [0; causes::sizes::LOAD_BYTES];
//! let length = causes::generate(1, 3, 4, &mut out)?;
//! assert!(out[..length].ends_with(b"(true a1)\n(if a1 a0)\n(true a0)\n(if a1(not a2)a0 a1)\n(query a0)\n"));
//! assert_eq!(causes::generate(1, 65, 4, &mut out), Err(causes::Refusal::NoLoad));
//! assert_eq!(causes::generate(1, 3, 4, &mut out[..length - 1]), Err(causes::Refusal::ShortLoadOutput));
//! # Ok::<(), causes::Refusal>(())
//! ```
//!
//! A line of a file has at most [`LITERALS`](crate::sizes::LITERALS) literals, a body in tables of the caller may have
//! more. It is written as any other, and its text is refused when read:
//!
//! ```
//! use causes::lent::{read, write, Tables};
//!
//! let mut tables = Tables::new();
//! let record = read(b"(if a b c d e f g h i j k l)\n(true l)\n(query a)\n", &mut tables)?;
//! tables.clauses[1] |= 1; // the rule's plain atoms, with atom 0 as the 12th
//! let mut out = [0; causes::sizes::FILE_BYTES];
//! let length = write(&record, &tables, &mut out)?;
//! assert!(out[..length].ends_with(b"(if a a b c d e f g h i j k l)\n(true l)\n(query a)\n"));
//! let refused = read(&out[..length], &mut tables).unwrap_err();
//! assert_eq!(refused, causes::Refusal::ManyLiterals { line: 13 });
//! # Ok::<(), causes::Refusal>(())
//! ```

mod operations;
mod tables;

pub use operations::{generate, layers, question, read, report, settle, write, Answer, Layers, Settled};
pub use tables::{Clauses, Constraints, Formula, Names, Prices, Record, Tables};
