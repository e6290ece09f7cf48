//! Breaches of one phrase of "A case is sound if .." in the counts and the entries of a rich case.
//!
//! Each takes a sound case and breaks the phrase at a drawn place; those in entries change one word or byte.

use crate::drawn::{deep, sized};
use crate::held::{nodes, Held, EDITION, FORMULAS, NODES, PART_BYTES};
use crate::sound::Phrase;
use evaluator::random::Random;

/// A breach: its name, the phrase that it breaks, and how.
pub type Breach = (&'static str, Phrase, fn(&mut Random, &mut Held));

/// The breaches of the limits on counts and depth, and of the edition.
pub const COUNTS: [Breach; 11] = [
    ("65 to 74 atoms", Phrase::AtomCount, |r, h| h.record[0] = r.between(65, 74) as u64),
    ("a 257th clause", Phrase::ClauseCount, |r, h| {
        let count = r.between(257, 300);
        let (row, used) = (h.clauses[..3].to_vec(), h.record[1] as usize);
        h.clauses.truncate(3 * used);
        h.clauses.extend(row.repeat(count - used));
        h.record[1] = count as u64;
    }),
    ("a 33rd constraint", Phrase::ConstraintCount, |r, h| {
        let count = r.between(33, 60);
        let (row, used) = (h.constraints[..3].to_vec(), h.record[2] as usize);
        h.constraints.truncate(3 * used);
        h.constraints.extend(row.repeat(count - used));
        h.record[2] = count as u64;
    }),
    ("no formula", Phrase::FormulaCount, |_, h| h.record[FORMULAS] = 0),
    ("a 17th formula", Phrase::FormulaCount, |r, h| h.record[FORMULAS] = *r.pick(&[17, 17, 18, 32, 40])),
    ("a 129th node", Phrase::NodeCount, long_formula),
    ("an 11th cause", Phrase::SettingCount, |r, h| h.record[0] += r.between(11, 40) as u64),
    ("a 16th cause of two choices", Phrase::SettingCount, many_assumed),
    ("an edition that is none", Phrase::EditionListed, |r, h| {
        let far = [257, 258, 1 << 16, (1 << 32) + 1, (1 << 32) + 2, 1 << 63, (1 << 63) + 1, u64::MAX - 1, u64::MAX];
        h.record[EDITION] = if r.chance(40) { *r.pick(&[0, 3]) } else { *r.pick(&far) };
    }),
    ("a bit above the edition", Phrase::EditionListed, |r, h| h.record[EDITION] |= 1 << r.between(2, 63)),
    ("a formula of depth 17 and more", Phrase::Depth, |r, h| {
        let depth = *r.pick(&[17, 17, 18, 20, 33, 60]);
        let deep = nodes(&deep(r, h.record[0] as usize, depth));
        let q = r.below(h.formulas());
        put_formula(h, q, &deep);
    }),
];

/// The breaches in clauses, constraints and observations.
pub const ENTRIES: [Breach; 19] = [
    ("a head names no atom", Phrase::HeadNamesAtom, head),
    ("a rule's plain bit names no atom", Phrase::ClauseBitNamesAtom, |r, h| outside(r, h, 1)),
    ("a rule's negated bit names no atom", Phrase::ClauseBitNamesAtom, |r, h| outside(r, h, 2)),
    ("a constraint's plain bit names no atom", Phrase::ConstraintBitNamesAtom, |r, h| constraint_bit(r, h, 0)),
    ("a constraint's negated bit names no atom", Phrase::ConstraintBitNamesAtom, |r, h| constraint_bit(r, h, 1)),
    ("a plain observed bit names no atom", Phrase::ObservedBitNamesAtom, |r, h| observed(r, h, 4)),
    ("a negated observed bit names no atom", Phrase::ObservedBitNamesAtom, |r, h| observed(r, h, 5)),
    ("a fact has a plain bit", Phrase::FactWordsZero, |r, h| inside(r, h, 0, 1)),
    ("a fact has a negated bit", Phrase::FactWordsZero, |r, h| inside(r, h, 0, 2)),
    ("an assumption has a plain bit", Phrase::AssumptionWordsZero, |r, h| inside(r, h, 1, 1)),
    ("an assumption has a negated bit", Phrase::AssumptionWordsZero, |r, h| inside(r, h, 1, 2)),
    ("a rule has no bit", Phrase::RuleHasBit, bare_rule),
    ("a constraint has no bit", Phrase::ConstraintHasBit, bare_constraint),
    ("a kind of 3", Phrase::KindListed, |r, h| kind(r, h, 3)),
    ("a kind past 3", Phrase::KindListed, |r, h| {
        let far = *r.pick(&[4, 5, 6, 7, 8, 254, 255, 256, 257, 258, 1 << 26, (1 << 26) + 2, 1 << 57, (1 << 58) - 1]);
        kind(r, h, far)
    }),
    ("a bit above head and kind", Phrase::KindListed, high_bit),
    ("a constraint's kind of 2", Phrase::ConstraintKindListed, |r, h| *constraint_kind(r, h) = 2),
    ("a constraint's kind past 2", Phrase::ConstraintKindListed, |r, h| {
        let far = *r.pick(&[3, 4, 64, 128, 255, 256, 257, 1 << 16, 1 << 32, (1 << 32) + 1, 1 << 63, u64::MAX]);
        *constraint_kind(r, h) = far
    }),
    ("a bit above a constraint's kind", Phrase::ConstraintKindListed, |r, h| {
        let bit = r.between(1, 63);
        *constraint_kind(r, h) |= 1 << bit
    }),
];

/// The breaches in a formula.
pub const FORMULA: [Breach; 6] = [
    ("a formula atom names no atom", Phrase::FormulaAtomNamesAtom, |r, h| {
        let node = strange(r, h) as u8;
        leaf(r, h, node)
    }),
    ("a node past 68", Phrase::NodeListed, |r, h| {
        let node = *r.pick(&[69, 70, 96, 127, 128, 129, 192, 255]);
        leaf(r, h, node)
    }),
    ("no node", Phrase::OneFormula, |r, h| {
        let q = r.below(h.formulas());
        h.record[NODES + q] = 0;
    }),
    ("a formula cut short", Phrase::OneFormula, |r, h| {
        let forms: Vec<usize> = (0..h.formulas()).filter(|q| h.nodes(*q) > 1).collect();
        let q = *r.pick(&forms);
        h.record[NODES + q] = r.between(1, h.nodes(q) - 1) as u64;
    }),
    ("nodes behind the formula", Phrase::OneFormula, behind),
    ("an operand is missing", Phrase::OneFormula, |r, h| {
        let q = r.below(h.formulas());
        let last = q * PART_BYTES + h.nodes(q) - 1;
        h.formula[last] = r.between(64, 68) as u8;
    }),
];

/// Puts 16 and more atoms of assumptions alone, some of them with two, behind the others, in edition 2.
fn many_assumed(random: &mut Random, held: &mut Held) {
    held.record[EDITION] = 2;
    for _ in 0..random.between(16, 40) {
        let head = held.record[0];
        held.record[0] += 1;
        for _ in 0..random.between(1, 2) {
            let at = 3 * held.record[1] as usize;
            held.record[1] += 1;
            held.clauses[at..at + 3].copy_from_slice(&[head + 64, 0, 0]);
        }
    }
}

/// A number below 64 that names no atom.
fn strange(random: &mut Random, held: &Held) -> u64 {
    let atoms = held.record[0] as usize;
    let any = random.between(atoms, 63);
    *random.pick(&[atoms, 63, any]) as u64
}

/// The place of a clause of the kind `kind`, in words.
fn place(random: &mut Random, held: &Held, kind: u64) -> usize {
    let places: Vec<usize> =
        (0..held.record[1] as usize).map(|i| 3 * i).filter(|i| held.clauses[*i] / 64 == kind).collect();
    *random.pick(&places)
}

/// The place of any clause, in words.
fn any_place(random: &mut Random, held: &Held) -> usize {
    3 * random.below(held.record[1] as usize)
}

fn head(random: &mut Random, held: &mut Held) {
    let at = any_place(random, held);
    held.clauses[at] = held.clauses[at] / 64 * 64 + strange(random, held);
}

/// Adds a bit that names no atom to word `word` of a rule.
fn outside(random: &mut Random, held: &mut Held, word: usize) {
    let at = place(random, held, 2) + word;
    held.clauses[at] |= 1 << strange(random, held);
}

/// Adds a bit that names an atom to word `word` of a clause of the kind `kind`.
fn inside(random: &mut Random, held: &mut Held, kind: u64, word: usize) {
    let at = place(random, held, kind) + word;
    held.clauses[at] |= 1 << random.below(held.record[0] as usize);
}

/// Adds a bit that names no atom to word `word` of a constraint.
fn constraint_bit(random: &mut Random, held: &mut Held, word: usize) {
    let at = 3 * random.below(held.record[2] as usize) + word;
    held.constraints[at] |= 1 << strange(random, held);
}

/// Adds a bit that names no atom to word `word` of the record.
fn observed(random: &mut Random, held: &mut Held, word: usize) {
    held.record[word] |= 1 << strange(random, held);
}

fn bare_rule(random: &mut Random, held: &mut Held) {
    let at = place(random, held, 2);
    held.clauses[at + 1..at + 3].fill(0);
}

fn bare_constraint(random: &mut Random, held: &mut Held) {
    let at = 3 * random.below(held.record[2] as usize);
    held.constraints[at..at + 2].fill(0);
}

/// The word for the kind of any constraint.
fn constraint_kind<'a>(random: &mut Random, held: &'a mut Held) -> &'a mut u64 {
    let at = 3 * random.below(held.record[2] as usize) + 2;
    &mut held.constraints[at]
}

/// Gives any clause the kind `kind`.
fn kind(random: &mut Random, held: &mut Held, kind: u64) {
    let at = any_place(random, held);
    held.clauses[at] = held.clauses[at] % 64 + 64 * kind;
}

/// Adds a bit above those of head and kind to the first word of any clause.
fn high_bit(random: &mut Random, held: &mut Held) {
    let at = any_place(random, held);
    held.clauses[at] |= 1 << random.between(8, 63);
}

/// Puts `node` for an atom of a formula.
fn leaf(random: &mut Random, held: &mut Held, node: u8) {
    let q = random.below(held.formulas());
    let places = q * PART_BYTES..q * PART_BYTES + held.nodes(q);
    let leaves: Vec<usize> = places.filter(|i| held.formula[*i] < 64).collect();
    held.formula[*random.pick(&leaves)] = node;
}

/// Puts atoms behind a formula and counts them.
fn behind(random: &mut Random, held: &mut Held) {
    let q = random.below(held.formulas());
    let nodes = held.nodes(q);
    let more = random.between(1, 5);
    for at in nodes..nodes + more {
        held.formula[q * PART_BYTES + at] = random.below(held.record[0] as usize) as u8;
    }
    held.record[NODES + q] += more as u64;
}

/// Puts `nodes` for the formula `q`; those past its part go on in what is behind.
fn put_formula(held: &mut Held, q: usize, nodes: &[u8]) {
    let end = q * PART_BYTES + nodes.len();
    held.formula.resize(held.formula.len().max(end), 0);
    held.formula[q * PART_BYTES..end].copy_from_slice(nodes);
    held.record[NODES + q] = nodes.len() as u64;
}

/// Puts a formula of more than 128 nodes: for the last one any number, for another 129, whose last is the next formula.
fn long_formula(random: &mut Random, held: &mut Held) {
    let q = random.below(held.formulas());
    let last = q + 1 == held.formulas();
    let count = if last { random.between(129, 200) } else { 129 };
    let long = nodes(&sized(random, held.record[0] as usize, count));
    put_formula(held, q, &long);
    if !last {
        held.record[NODES + q + 1] = 1;
    }
}
