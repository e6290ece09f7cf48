//! The record and the tables that hold a case, made from the evaluator's case and read back.
//!
//! From: document 01, Case tables and sound cases; document 02, [1], [5], [7], [10].
//!
//! | name | meaning |
//! |---|---|
//! | `Held` | a case record and tables, of any sizes and contents |
//! | `FORMULAS`, `NODES` | the record's word with the number of formulas, and the first with a number of nodes |
//! | `EDITION` | the record's word with the edition, its last |
//! | `Held::zeros`, `Held::empty` | zeros everywhere; the same in edition 1 |
//! | `Held::of` | the record and the full tables that hold a case, zeros in unused entries |
//! | `Held::case` | the case that a sound record and its tables hold |
//! | `Held::full` | the same in the evaluator's form, which says apart from `sound` whether it is sound |

use evaluator::case::{Body, Case, Clause};
use evaluator::cause::Edition;
use evaluator::constraint::{Constraint, Kind};
use evaluator::formula::{Connective, Formula, Literal};

pub const ATOMS: usize = 64;
pub const CLAUSE_WORDS: usize = 768;
pub const CONSTRAINT_WORDS: usize = 96;
pub const QUERIES: usize = 16;
pub const PART_BYTES: usize = 128;
pub const FORMULA_BYTES: usize = QUERIES * PART_BYTES;
pub const NAMES_BYTES: usize = 1_024;
pub const PRICES: usize = 64;
pub const RECORD_WORDS: usize = 23;

pub const FORMULAS: usize = 3;
pub const NODES: usize = 6;
pub const EDITION: usize = NODES + QUERIES;

/// A case record of 23 words, and the tables: atoms, clauses, constraints, formulas, plain and negated observed atoms,
/// the nodes in each of the 16 parts of the formula table, and the edition.
#[derive(Clone, PartialEq)]
pub struct Held {
    pub record: Vec<u64>,
    pub clauses: Vec<u64>,
    pub constraints: Vec<u64>,
    pub formula: Vec<u8>,
    pub names: Vec<u8>,
    pub prices: Vec<u32>,
}

/// The plain and the negated atoms of `literals`, bit i for atom i.
pub fn masks(literals: &[Literal<usize>]) -> [u64; 2] {
    let mask = |negated| literals.iter().filter(|l| l.negated == negated).fold(0, |m, l| m | 1u64 << l.atom);
    [mask(false), mask(true)]
}

/// The literals of a plain and a negated word.
fn literals(plain: u64, negated: u64) -> Vec<Literal<usize>> {
    let of = |word: u64, negated| {
        (0..64).filter(move |atom| word >> atom & 1 == 1).map(move |atom| Literal { atom, negated })
    };
    of(plain, false).chain(of(negated, true)).collect()
}

/// The three words of a clause.
fn clause_words(clause: &Clause) -> [u64; 3] {
    let (kind, [plain, negated]) = match &clause.body {
        Body::True => (0, [0, 0]),
        Body::False => (1, [0, 0]),
        Body::All(body) => (2, masks(body)),
    };
    [clause.head as u64 + 64 * kind, plain, negated]
}

/// The three words of a constraint.
fn constraint_words(constraint: &Constraint) -> [u64; 3] {
    let [plain, negated] = masks(&constraint.body);
    let kind = match constraint.kind {
        Kind::Never => 0,
        Kind::Avoid => 1,
    };
    [plain, negated, kind]
}

/// The nodes of a formula in prefix order.
pub fn nodes(formula: &Formula<usize>) -> Vec<u8> {
    match formula {
        Formula::True | Formula::False => panic!("no node stands for a constant"),
        Formula::Atom(a) => vec![*a as u8],
        Formula::Not(f) => [vec![64], nodes(f)].concat(),
        Formula::Two(c, f, g) => {
            let node = match c {
                Connective::And => 65,
                Connective::Or => 66,
                Connective::Then => 67,
                Connective::Same => 68,
            };
            [vec![node], nodes(f), nodes(g)].concat()
        }
    }
}

/// The formula at the front of `nodes`, and the nodes behind it.
fn formula(nodes: &[u8]) -> (Formula<usize>, &[u8]) {
    let (first, rest) = nodes.split_first().expect("a node");
    let connective = match first {
        0..=63 => return (Formula::Atom(*first as usize), rest),
        64 => {
            let (f, rest) = formula(rest);
            return (Formula::Not(Box::new(f)), rest);
        }
        65 => Connective::And,
        66 => Connective::Or,
        67 => Connective::Then,
        68 => Connective::Same,
        _ => panic!("no node"),
    };
    let (f, rest) = formula(rest);
    let (g, rest) = formula(rest);
    (Formula::two(connective, f, g), rest)
}

/// `entries`, with zeros behind them up to `size`.
pub fn padded<T: Copy + Default>(mut entries: Vec<T>, size: usize) -> Vec<T> {
    entries.resize(size.max(entries.len()), T::default());
    entries
}

/// The row of a name.
fn row(name: &String) -> [u8; 16] {
    let mut row = [0; 16];
    row[..name.len()].copy_from_slice(name.as_bytes());
    row
}

impl Held {
    /// The record and the tables that hold `case`.
    pub fn of(case: &Case) -> Held {
        let queries: Vec<Vec<u8>> = case.queries.iter().map(nodes).collect();
        let [plain, negated] = masks(&case.observations);
        let counts = [case.names.len(), case.clauses.len(), case.constraints.len(), queries.len()];
        let counts = counts.iter().map(|n| *n as u64).chain([plain, negated]);
        let record = padded(counts.chain(queries.iter().map(|query| query.len() as u64)).collect(), EDITION);
        let parts = queries.into_iter().flat_map(|query| padded(query, PART_BYTES)).collect();
        Held {
            record: [record, vec![case.edition.number()]].concat(),
            clauses: padded(case.clauses.iter().flat_map(clause_words).collect(), CLAUSE_WORDS),
            constraints: padded(case.constraints.iter().flat_map(constraint_words).collect(), CONSTRAINT_WORDS),
            formula: padded(parts, FORMULA_BYTES),
            names: padded(case.names.iter().flat_map(row).collect(), NAMES_BYTES),
            prices: padded(case.prices.clone(), PRICES),
        }
    }

    /// Tables of zeros in their sizes, and a record of zeros.
    pub fn zeros() -> Held {
        Held {
            record: vec![0; RECORD_WORDS],
            clauses: vec![0; CLAUSE_WORDS],
            constraints: vec![0; CONSTRAINT_WORDS],
            formula: vec![0; FORMULA_BYTES],
            names: vec![0; NAMES_BYTES],
            prices: vec![0; PRICES],
        }
    }

    /// Tables of zeros in their sizes, and a record of zeros but for the edition 1.
    pub fn empty() -> Held {
        let mut held = Held::zeros();
        held.record[EDITION] = 1;
        held
    }

    /// The evaluator's record and tables with the same contents, of their full sizes.
    pub fn full(&self) -> evaluator::held::Held {
        let [atoms, clauses, constraints, formulas, plain, negated] = self.record[..NODES] else { panic!("a record") };
        let nodes = self.record[NODES..EDITION].try_into().expect("a count for each part");
        let edition = self.record[EDITION];
        evaluator::held::Held {
            record: evaluator::held::Record { atoms, clauses, constraints, formulas, nodes, plain, negated, edition },
            clauses: self.clauses.clone(),
            constraints: self.constraints.clone(),
            formulas: self.formula.clone(),
            names: self.names.clone(),
            prices: self.prices.clone(),
        }
    }

    /// The number of formulas.
    pub fn formulas(&self) -> usize {
        self.record[FORMULAS] as usize
    }

    /// The number of nodes of the formula `q`.
    pub fn nodes(&self, q: usize) -> usize {
        self.record[NODES + q] as usize
    }

    /// The case that this record and these tables hold, which are sound; names are made up.
    pub fn case(&self) -> Case {
        let count = |at: usize| self.record[at] as usize;
        let clause = |w: &[u64]| {
            let body = match w[0] / 64 {
                0 => Body::True,
                1 => Body::False,
                _ => Body::All(literals(w[1], w[2])),
            };
            Clause { head: (w[0] % 64) as usize, body }
        };
        let constraint = |w: &[u64]| {
            let kind = if w[2] == 0 { Kind::Never } else { Kind::Avoid };
            Constraint { kind, body: literals(w[0], w[1]) }
        };
        Case {
            names: (0..count(0)).map(|i| format!("n{i}")).collect(),
            clauses: self.clauses.chunks_exact(3).take(count(1)).map(clause).collect(),
            constraints: self.constraints.chunks_exact(3).take(count(2)).map(constraint).collect(),
            observations: literals(self.record[4], self.record[5]),
            queries: (0..self.formulas())
                .map(|q| formula(&self.formula[q * PART_BYTES..][..self.nodes(q)]).0)
                .collect(),
            prices: self.prices[..count(0)].to_vec(),
            edition: Edition::of(self.record[EDITION]).expect("an edition"),
        }
    }
}
