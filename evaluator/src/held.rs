//! The record and the tables that hold a case, made from it and read back.
//!
//! From: document 01, Case tables and sound cases; document 02, [1], [5], [7], [8], [10].
//!
//! | name | meaning |
//! |---|---|
//! | `Record`, `Held` | a case record; a record with tables of their full sizes, of any contents |
//! | `Held::of` | the record and the tables that hold a case, zeros in unused entries |
//! | `Held::case` | the case that a record and tables hold, if they are sound |
//! | `Held::is_full` | whether no table is shorter than its size |
//! | `Held::used` | the same in its used entries, with zeros in the others |

use crate::case::{Body, Case, Clause};
use crate::cause::{settings, Edition, SETTINGS};
use crate::constraint::{Constraint, Kind};
use crate::file::{ATOMS, CLAUSES, CONSTRAINTS, DEPTH, NAME_BYTES, QUERIES};
use crate::formula::{Connective, Formula, Literal};

/// The bytes of a part of the formula table, one for each query.
pub const PART_BYTES: usize = 128;

/// The connectives by their nodes, from `AND` on.
const CONNECTIVES: [Connective; 4] = [Connective::And, Connective::Or, Connective::Then, Connective::Same];
const NOT: u8 = 64;
const AND: u8 = 65;

/// A case record: the counts, the nodes of each formula, the plain and the negated observed atoms, and the edition.
#[derive(Clone, PartialEq, Default)]
pub struct Record {
    pub atoms: u64,
    pub clauses: u64,
    pub constraints: u64,
    pub formulas: u64,
    pub nodes: [u64; QUERIES],
    pub plain: u64,
    pub negated: u64,
    pub edition: u64,
}

/// A case record, and tables of their full sizes.
#[derive(Clone, PartialEq)]
pub struct Held {
    pub record: Record,
    pub clauses: Vec<u64>,
    pub constraints: Vec<u64>,
    pub formulas: Vec<u8>,
    pub names: Vec<u8>,
    pub prices: Vec<u32>,
}

/// The plain and the negated atoms of `literals`, bit i for atom i.
fn masks(literals: &[Literal<usize>]) -> [u64; 2] {
    let mask = |negated| literals.iter().filter(|l| l.negated == negated).fold(0, |m, l| m | 1u64 << l.atom);
    [mask(false), mask(true)]
}

/// The three words of a clause.
fn clause_words(clause: &Clause) -> [u64; 3] {
    let (kind, [plain, negated]) = match &clause.body {
        Body::True => (0, [0, 0]),
        Body::False => (1, [0, 0]),
        Body::All(body) => (2, masks(body)),
    };
    [clause.head as u64 + 64 * kind, plain, negated]
}

/// The three words of a constraint.
fn constraint_words(constraint: &Constraint) -> [u64; 3] {
    let [plain, negated] = masks(&constraint.body);
    [plain, negated, constraint.kind.number()]
}

/// The nodes of a formula without constants, in prefix order.
fn nodes(formula: &Formula<usize>) -> Vec<u8> {
    match formula {
        Formula::True | Formula::False => panic!("no node stands for a constant"),
        Formula::Atom(a) => vec![*a as u8],
        Formula::Not(f) => [vec![NOT], nodes(f)].concat(),
        Formula::Two(c, f, g) => [vec![AND + *c as u8], nodes(f), nodes(g)].concat(),
    }
}

/// Copies `entries` to the front of `table`.
fn fill<T: Copy>(table: &mut [T], entries: &[T]) {
    table[..entries.len()].copy_from_slice(entries);
}

/// The literals of a plain and a negated word, none if a bit names none of `atoms` atoms.
fn literals(plain: u64, negated: u64, atoms: usize) -> Option<Vec<Literal<usize>>> {
    let of =
        |word: u64, negated| (0..64).filter(move |a| word >> a & 1 == 1).map(move |atom| Literal { atom, negated });
    let all: Vec<Literal<usize>> = of(plain, false).chain(of(negated, true)).collect();
    all.iter().all(|l| l.atom < atoms).then_some(all)
}

/// The body of a plain and a negated word, none if it is empty or a bit names none of `atoms` atoms.
fn body(plain: u64, negated: u64, atoms: usize) -> Option<Vec<Literal<usize>>> {
    literals(plain, negated, atoms).filter(|all| !all.is_empty())
}

/// The clause of three words, none if it is not sound among `atoms` atoms.
fn clause(words: &[u64], atoms: usize) -> Option<Clause> {
    let head = (words[0] % 64) as usize;
    let body = match (words[0] / 64, words[1], words[2]) {
        (0, 0, 0) => Body::True,
        (1, 0, 0) => Body::False,
        (2, plain, negated) => Body::All(body(plain, negated, atoms)?),
        _ => return None,
    };
    (head < atoms).then_some(Clause { head, body })
}

/// The constraint of three words, none if it is not sound among `atoms` atoms.
fn constraint(words: &[u64], atoms: usize) -> Option<Constraint> {
    Some(Constraint { kind: Kind::of(words[2])?, body: body(words[0], words[1], atoms)? })
}

/// The formula over `atoms` atoms at the front of `nodes`, and the nodes behind it; none if there is no such formula.
fn formula(nodes: &[u8], atoms: usize) -> Option<(Formula<usize>, &[u8])> {
    let (first, rest) = nodes.split_first()?;
    if *first < NOT {
        return (usize::from(*first) < atoms).then_some((Formula::Atom(usize::from(*first)), rest));
    }
    let (f, rest) = formula(rest, atoms)?;
    if *first == NOT {
        return Some((Formula::Not(Box::new(f)), rest));
    }
    let connective = *CONNECTIVES.get(usize::from(*first - AND))?;
    let (g, rest) = formula(rest, atoms)?;
    Some((Formula::two(connective, f, g), rest))
}

impl Held {
    /// A record and tables of zeros.
    pub fn zeros() -> Held {
        Held {
            record: Record::default(),
            clauses: vec![0; 3 * CLAUSES],
            constraints: vec![0; 3 * CONSTRAINTS],
            formulas: vec![0; PART_BYTES * QUERIES],
            names: vec![0; NAME_BYTES * ATOMS],
            prices: vec![0; ATOMS],
        }
    }

    /// The record and the tables that hold `case`.
    pub fn of(case: &Case) -> Held {
        let mut held = Held::zeros();
        let record = &mut held.record;
        record.atoms = case.names.len() as u64;
        record.clauses = case.clauses.len() as u64;
        record.constraints = case.constraints.len() as u64;
        record.formulas = case.queries.len() as u64;
        [record.plain, record.negated] = masks(&case.observations);
        record.edition = case.edition.number();
        fill(&mut held.clauses, &case.clauses.iter().flat_map(clause_words).collect::<Vec<_>>());
        fill(&mut held.constraints, &case.constraints.iter().flat_map(constraint_words).collect::<Vec<_>>());
        for (at, query) in case.queries.iter().enumerate() {
            let nodes = nodes(query);
            record.nodes[at] = nodes.len() as u64;
            fill(&mut held.formulas[PART_BYTES * at..PART_BYTES * (at + 1)], &nodes);
        }
        for (row, name) in held.names.chunks_exact_mut(NAME_BYTES).zip(&case.names) {
            fill(row, name.as_bytes());
        }
        fill(&mut held.prices, &case.prices);
        held
    }

    /// Whether no table is shorter than its size.
    pub fn is_full(&self) -> bool {
        let full = Held::zeros();
        self.clauses.len() >= full.clauses.len()
            && self.constraints.len() >= full.constraints.len()
            && self.formulas.len() >= full.formulas.len()
            && self.names.len() >= full.names.len()
            && self.prices.len() >= full.prices.len()
    }

    /// This record and these tables, which hold a sound case, with zeros in the entries that are not used and none past
    /// the sizes.
    pub fn used(&self) -> Held {
        let mut held = Held::zeros();
        let Record { atoms, clauses, constraints, formulas, nodes, .. } = self.record;
        held.record = self.record.clone();
        held.record.nodes[formulas as usize..].fill(0);
        fill(&mut held.clauses, &self.clauses[..3 * clauses as usize]);
        fill(&mut held.constraints, &self.constraints[..3 * constraints as usize]);
        for (at, nodes) in nodes.into_iter().enumerate().take(formulas as usize) {
            fill(&mut held.formulas[PART_BYTES * at..], &self.formulas[PART_BYTES * at..][..nodes as usize]);
        }
        fill(&mut held.names, &self.names[..NAME_BYTES * atoms as usize]);
        fill(&mut held.prices, &self.prices[..atoms as usize]);
        held
    }

    /// The formula of part `at` over `atoms` atoms, none if its nodes are not exactly one of lawful depth.
    fn formula(&self, at: usize, atoms: usize) -> Option<Formula<usize>> {
        let part = &self.formulas[PART_BYTES * at..PART_BYTES * (at + 1)];
        let nodes = part.get(..usize::try_from(self.record.nodes[at]).ok()?)?;
        let (formula, rest) = formula(nodes, atoms)?;
        (rest.is_empty() && formula.depth() <= DEPTH).then_some(formula)
    }

    /// The case that this record and these tables hold, none if it is not sound; its names are made up.
    pub fn case(&self) -> Option<Case> {
        let within = |n: u64, least, most| usize::try_from(n).ok().filter(|n| (least..=most).contains(n));
        let atoms = within(self.record.atoms, 1, ATOMS)?;
        let clauses = within(self.record.clauses, 0, CLAUSES)?;
        let constraints = within(self.record.constraints, 0, CONSTRAINTS)?;
        let formulas = within(self.record.formulas, 1, QUERIES)?;
        let case = Case {
            names: (0..atoms).map(|i| format!("n{i}")).collect(),
            clauses: self.clauses.chunks_exact(3).take(clauses).map(|w| clause(w, atoms)).collect::<Option<_>>()?,
            constraints: self
                .constraints
                .chunks_exact(3)
                .take(constraints)
                .map(|w| constraint(w, atoms))
                .collect::<Option<_>>()?,
            observations: literals(self.record.plain, self.record.negated, atoms)?,
            queries: (0..formulas).map(|at| self.formula(at, atoms)).collect::<Option<_>>()?,
            prices: self.prices[..atoms].to_vec(),
            edition: Edition::of(self.record.edition)?,
        };
        (settings(&case.causes()) <= SETTINGS).then_some(case)
    }
}
