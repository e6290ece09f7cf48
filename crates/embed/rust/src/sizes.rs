//! The sizes of lent memory, in elements.
//!
//! From: document 01, Case tables and sound cases; What each operation refuses; document 02, `[1]`, `[5]` to `[11]`.

/// Words of the clause table, three a clause.
pub const CLAUSE_WORDS: usize = 768;

/// Words of the constraint table, three a constraint.
pub const CONSTRAINT_WORDS: usize = 96;

/// Bytes of the formula table: a part for each query.
pub const FORMULA_BYTES: usize = QUERIES * PART_BYTES;

/// Bytes of a part of the formula table, one a node.
pub const PART_BYTES: usize = 128;

/// Bytes of the table of names.
pub const NAMES_BYTES: usize = 1_024;

/// Bytes of a name's row.
pub const NAME_BYTES: usize = 16;

/// Entries of the table of prices, one an atom.
pub const PRICES: usize = 64;

/// The most atoms of a case.
pub const ATOMS: usize = NAMES_BYTES / NAME_BYTES;

/// Words of a case record.
pub const RECORD_WORDS: usize = 7 + QUERIES;

/// The most queries of a file, and formulas of a case.
pub const QUERIES: usize = 16;

/// The most literals that an `if`, `never` or `avoid` line may have, counted as written, without a rule's head. A body
/// in lent tables may have more: the case is sound, and its text is refused when read.
pub const LITERALS: usize = 11;

/// The longest file that is read, and the longest text of a case: an output of so many bytes is long enough for each.
pub const FILE_BYTES: usize = 32_768;

/// The most settings that a case has: a work area of so many bytes is long enough for each.
pub const SETTINGS: usize = 59_049;

/// The most minimal explanations that a case has: a list of so many slots holds them all.
pub const MINIMAL: usize = 15_360;

/// The longest report: an output of so many bytes is long enough for each.
pub const REPORT_BYTES: usize = 392_640;

/// The longest load: an output of so many bytes is long enough for each.
pub const LOAD_BYTES: usize = 9_931;
