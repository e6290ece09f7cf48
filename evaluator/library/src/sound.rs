//! Which phrases of "A case is sound if .." a record and its tables break.
//!
//! From: document 01, Case tables and sound cases; document 02, [1], [5], [10].
//!
//! Counts, and bits held against them, are compared as they stand; a formula is read from its end, with the depths of
//! what was read on a stack.

use crate::held::{Held, CLAUSE_WORDS, CONSTRAINT_WORDS, EDITION, FORMULA_BYTES, NODES, PART_BYTES, QUERIES};

/// A phrase that can be broken.
#[derive(Clone, Copy, Debug, PartialEq)]
pub enum Phrase {
    FullSizes,
    AtomCount,
    ClauseCount,
    ConstraintCount,
    FormulaCount,
    NodeCount,
    EditionListed,
    SettingCount,
    HeadNamesAtom,
    ClauseBitNamesAtom,
    ConstraintBitNamesAtom,
    ObservedBitNamesAtom,
    FormulaAtomNamesAtom,
    FactWordsZero,
    AssumptionWordsZero,
    RuleHasBit,
    ConstraintHasBit,
    KindListed,
    ConstraintKindListed,
    NodeListed,
    OneFormula,
    Depth,
}

/// Whether every bit of `word` is below `atoms`.
fn names_atoms(word: u64, atoms: u64) -> bool {
    (0..64).all(|bit| word >> bit & 1 == 0 || bit < atoms)
}

/// The phrases that the clause `w` breaks.
fn broken_by_clause(w: &[u64], atoms: u64) -> Vec<Phrase> {
    let (head, kind, bare) = (w[0] % 64, w[0] / 64, w[1] == 0 && w[2] == 0);
    let rows = [
        (Phrase::HeadNamesAtom, head >= atoms),
        (Phrase::ClauseBitNamesAtom, !names_atoms(w[1], atoms) || !names_atoms(w[2], atoms)),
        (Phrase::FactWordsZero, kind == 0 && !bare),
        (Phrase::AssumptionWordsZero, kind == 1 && !bare),
        (Phrase::RuleHasBit, kind == 2 && bare),
        (Phrase::KindListed, kind > 2),
    ];
    broken_of(&rows)
}

/// The phrases of the rows that are broken.
fn broken_of(rows: &[(Phrase, bool)]) -> Vec<Phrase> {
    rows.iter().filter(|(_, broken)| *broken).map(|(phrase, _)| *phrase).collect()
}

/// The depths of the formulas that `nodes` are, the first one last; none if an operand is missing. Nodes that are not
/// listed have no operands.
fn depths(nodes: &[u8]) -> Option<Vec<usize>> {
    let mut stack: Vec<usize> = Vec::new();
    for node in nodes.iter().rev() {
        let depth = match node {
            64 => stack.pop()?,
            65..=68 => stack.pop()?.max(stack.pop()?),
            _ => 0,
        };
        stack.push(depth + 1);
    }
    Some(stack)
}

/// The phrases that the formula `q` breaks; one with too many nodes goes on behind its part.
fn broken_by_formula(held: &Held, q: usize, atoms: u64) -> Vec<Phrase> {
    let count = held.record[NODES + q];
    let nodes = entries(held.formula.get(q * PART_BYTES..).unwrap_or_default(), count, 1);
    let read = depths(nodes);
    let one = read.as_ref().is_some_and(|d| d.len() == 1);
    let rows = [
        (Phrase::NodeCount, count > PART_BYTES as u64),
        (Phrase::FormulaAtomNamesAtom, nodes.iter().any(|n| *n < 64 && u64::from(*n) >= atoms)),
        (Phrase::NodeListed, nodes.iter().any(|n| *n > 68)),
        (Phrase::OneFormula, !one),
        (Phrase::Depth, one && read.is_some_and(|d| d[0] > 16)),
    ];
    broken_of(&rows)
}

/// Whether the product of the choices is at most 59,049: three for an atom that heads none of `clauses`, in edition 2
/// two for one that heads assumptions alone. With 64 of each it still fits.
fn has_few_settings(clauses: &[u64], atoms: u64, edition: u64) -> bool {
    let kinds = |atom: u64| clauses.chunks_exact(3).filter(move |w| w[0] % 64 == atom).map(|w| w[0] / 64);
    let headed = || (0..64).filter(|atom| *atom < atoms && kinds(*atom).next().is_some());
    let twos = headed().filter(|atom| edition == 2 && kinds(*atom).all(|kind| kind == 1)).count();
    let threes = atoms - headed().count() as u64;
    threes <= 10 && 3u128.pow(threes as u32) << twos <= 59_049
}

/// The first `n` entries of `width` elements of `table`, as many as it has.
fn entries<T>(table: &[T], n: u64, width: usize) -> &[T] {
    let all = table.len() / width;
    &table[..width * all.min(usize::try_from(n).unwrap_or(all))]
}

/// The phrases that `held` breaks, each once.
pub fn broken(held: &Held) -> Vec<Phrase> {
    let [atoms, clauses, constraints, formulas, plain, negated] = held.record[..NODES] else { panic!("a record") };
    let edition = held.record[EDITION];
    let used = entries(&held.clauses, clauses, 3);
    let bodies = entries(&held.constraints, constraints, 3);
    let short = held.clauses.len() < CLAUSE_WORDS
        || held.constraints.len() < CONSTRAINT_WORDS
        || held.formula.len() < FORMULA_BYTES;
    let strange = |w: &[u64]| !names_atoms(w[0], atoms) || !names_atoms(w[1], atoms);
    let rows = [
        (Phrase::FullSizes, short),
        (Phrase::AtomCount, !(1..=64).contains(&atoms)),
        (Phrase::ClauseCount, clauses > 256),
        (Phrase::ConstraintCount, constraints > 32),
        (Phrase::FormulaCount, !(1..=16).contains(&formulas)),
        (Phrase::EditionListed, !(1..=2).contains(&edition)),
        (Phrase::SettingCount, !has_few_settings(used, atoms, edition)),
        (Phrase::ConstraintBitNamesAtom, bodies.chunks_exact(3).any(strange)),
        (Phrase::ObservedBitNamesAtom, strange(&[plain, negated])),
        (Phrase::ConstraintHasBit, bodies.chunks_exact(3).any(|w| w[0] == 0 && w[1] == 0)),
        (Phrase::ConstraintKindListed, bodies.chunks_exact(3).any(|w| w[2] > 1)),
    ];
    let mut found = broken_of(&rows);
    found.extend(used.chunks_exact(3).flat_map(|w| broken_by_clause(w, atoms)));
    let parts = 0..held.formulas().min(QUERIES);
    found.extend(parts.flat_map(|q| broken_by_formula(held, q, atoms)));
    let mut each: Vec<Phrase> = Vec::new();
    for phrase in found {
        if !each.contains(&phrase) {
            each.push(phrase);
        }
    }
    each
}
