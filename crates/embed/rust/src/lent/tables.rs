//! The case record and the lent tables.
//!
//! From: document 01, Case tables and sound cases; document 02, [1], [5], [7] and [10].

use crate::sizes::{CLAUSE_WORDS, CONSTRAINT_WORDS, FORMULA_BYTES, NAMES_BYTES, NAME_BYTES};
use crate::sizes::{PRICES, QUERIES, RECORD_WORDS};

/// Clauses: three words each, head + 64 × kind (0 fact, 1 assumption, 2 rule), plain atoms, negated atoms.
pub type Clauses = [u64; CLAUSE_WORDS];

/// Constraints: three words each, plain atoms, negated atoms, kind (0 never, the body must be false; 1 avoid, it must
/// not be true).
pub type Constraints = [u64; CONSTRAINT_WORDS];

/// Formulas: 128 bytes each, in prefix order, 0 to 63 an atom, 64 not, 65 and, 66 or, 67 then, 68 same.
pub type Formula = [u8; FORMULA_BYTES];

/// Names: 16 bytes an atom, zero-filled at the end.
pub type Names = [u8; NAMES_BYTES];

/// Prices: one an atom, in cents, the supplement included; any 32-bit numbers may be lent.
pub type Prices = [u32; PRICES];

/// The five tables of a case.
#[derive(Clone, Debug, PartialEq, Eq)]
#[non_exhaustive]
pub struct Tables {
    /// The clauses.
    pub clauses: Clauses,
    /// The constraints.
    pub constraints: Constraints,
    /// The queries, in file order.
    pub formula: Formula,
    /// The names.
    pub names: Names,
    /// The prices.
    pub prices: Prices,
}

impl Tables {
    /// Tables of zeros.
    pub const fn new() -> Tables {
        Tables {
            clauses: [0; CLAUSE_WORDS],
            constraints: [0; CONSTRAINT_WORDS],
            formula: [0; FORMULA_BYTES],
            names: [0; NAMES_BYTES],
            prices: [0; PRICES],
        }
    }

    /// The name of the atom `atom`, none if the table has no such row.
    pub fn name(&self, atom: usize) -> Option<&[u8]> {
        let row = self.names.chunks_exact(NAME_BYTES).nth(atom)?;
        let length = row.iter().position(|b| *b == 0).unwrap_or(NAME_BYTES);
        Some(&row[..length])
    }
}

impl Default for Tables {
    fn default() -> Tables {
        Tables::new()
    }
}

/// A case record: how many entries of the tables are in use, the observed atoms, bit i for atom i, and the edition. The
/// node counts of parts past the formulas are zero when read, and not looked at when lent.
#[derive(Clone, Copy, Debug, Default, PartialEq, Eq)]
#[non_exhaustive]
pub struct Record {
    /// The atoms.
    pub atoms: u64,
    /// The clauses.
    pub clauses: u64,
    /// The constraints.
    pub constraints: u64,
    /// The formulas.
    pub formulas: u64,
    /// The atoms observed as true.
    pub plain: u64,
    /// The atoms observed as false.
    pub negated: u64,
    /// The nodes of each formula.
    pub nodes: [u64; QUERIES],
    /// The edition, 1 or 2; any other is unsound. In edition 2 atoms whose clauses are all assumptions are causes too.
    pub edition: u64,
}

impl Record {
    /// The record's words.
    pub fn words(&self) -> [u64; RECORD_WORDS] {
        let mut words = [0; RECORD_WORDS];
        let [atoms, clauses, constraints, formulas, plain, negated, nodes @ .., edition] = &mut words;
        (*atoms, *clauses, *constraints, *formulas) = (self.atoms, self.clauses, self.constraints, self.formulas);
        (*plain, *negated, *nodes, *edition) = (self.plain, self.negated, self.nodes, self.edition);
        words
    }

    /// The record in these words.
    pub fn from_words(words: [u64; RECORD_WORDS]) -> Record {
        let [atoms, clauses, constraints, formulas, plain, negated, nodes @ .., edition] = words;
        Record { atoms, clauses, constraints, formulas, plain, negated, nodes, edition }
    }
}
