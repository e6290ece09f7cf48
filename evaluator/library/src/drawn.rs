//! Drawn cases that no file need give: clauses, constraints, observations and formulas of any lawful shape.
//!
//! | name | meaning |
//! |---|---|
//! | `Shape` | how many of each thing a case has, and the most nodes of a query |
//! | `small`, `rich` | shapes for many cases; a rich one has each kind of entry |
//! | `drawn`, `second` | a case of a shape, of edition 1; one of edition 2 with causes of two choices |
//! | `prices` | prices of atoms, in one of several ranges |
//! | `strewn` | a case's tables with garbage in the entries past the counts |
//! | `sized`, `deep` | a formula of so many nodes; one of so great a depth |

use crate::held::{Held, EDITION, NODES, PART_BYTES, PRICES, QUERIES};
use evaluator::case::{Body, Case, Clause};
use evaluator::cause::{settings, Edition};
use evaluator::constraint::{Constraint, KINDS};
use evaluator::formula::{Connective, Formula, Literal};
use evaluator::random::Random;

/// The counts of a drawn case; the atoms from `causes` on head clauses, the others none. The last query has `nodes`
/// nodes, the others have no more.
#[derive(Clone, Copy)]
pub struct Shape {
    pub atoms: usize,
    pub causes: usize,
    pub clauses: usize,
    pub constraints: usize,
    pub queries: usize,
    pub nodes: usize,
}

/// A number of queries: often one, now and then 16.
fn some_queries(random: &mut Random) -> usize {
    match random.below(12) {
        0..=5 => 1,
        6..=9 => random.between(2, 5),
        10 => random.between(6, QUERIES - 1),
        _ => QUERIES,
    }
}

/// A shape with few atoms and at most four causes.
pub fn small(random: &mut Random) -> Shape {
    let causes = random.between(0, 4);
    let atoms = (causes + *random.pick(&[0, 1, 2, 3, 4, 6, 9])).max(1);
    let clauses = if atoms > causes { atoms - causes + random.below(6) } else { 0 };
    let (queries, nodes) = (some_queries(random), random.between(1, 9));
    Shape { atoms, causes, clauses, constraints: random.below(3), queries, nodes }
}

/// A shape with a fact, an assumption, a rule, a constraint, a form in its last query, and numbers that name no atom.
pub fn rich(random: &mut Random) -> Shape {
    let causes = random.between(0, 4);
    let defined = random.between(2, 6);
    let clauses = defined.max(4) + random.below(6);
    let (queries, nodes) = (some_queries(random), random.between(2, 12));
    Shape { atoms: causes + defined, causes, clauses, constraints: random.between(1, 4), queries, nodes }
}

/// A drawn literal of the first `atoms` atoms.
fn literal(random: &mut Random, atoms: usize) -> Literal<usize> {
    Literal { atom: random.below(atoms), negated: random.chance(40) }
}

/// One to three drawn literals.
fn body(random: &mut Random, atoms: usize) -> Vec<Literal<usize>> {
    (0..random.between(1, 3)).map(|_| literal(random, atoms)).collect()
}

/// A formula of `nodes` nodes over the first `atoms` atoms, with operands of nearly the same size.
pub fn sized(random: &mut Random, atoms: usize, nodes: usize) -> Formula<usize> {
    if nodes == 1 {
        return Formula::Atom(random.below(atoms));
    }
    if nodes % 2 == 0 {
        return Formula::Not(Box::new(sized(random, atoms, nodes - 1)));
    }
    let left = ((nodes - 1) / 2 + random.below(3)).saturating_sub(1).clamp(1, nodes - 2);
    let connective = *random.pick(&[Connective::And, Connective::Or, Connective::Then, Connective::Same]);
    let first = sized(random, atoms, left);
    Formula::two(connective, first, sized(random, atoms, nodes - 1 - left))
}

/// A formula of depth `depth`, in which few nodes stand beside the deepest.
pub fn deep(random: &mut Random, atoms: usize, depth: usize) -> Formula<usize> {
    let mut formula = Formula::Atom(random.below(atoms));
    for at in 1..depth {
        let beside = Formula::Atom(random.below(atoms));
        formula = match random.below(if at < 60 { 4 } else { 1 }) {
            0 | 1 => Formula::Not(Box::new(formula)),
            2 => Formula::two(Connective::Then, formula, beside),
            _ => Formula::two(Connective::Or, beside, formula),
        };
    }
    formula
}

/// A clause for `head`: the first three of a case are a fact, an assumption and a rule.
fn clause(random: &mut Random, head: usize, at: usize, atoms: usize) -> Clause {
    let kind = if at < 3 { at } else { *random.pick(&[0, 1, 2, 2, 2, 2, 2]) };
    let body = match kind {
        0 => Body::True,
        1 => Body::False,
        _ => Body::All(body(random, atoms)),
    };
    Clause { head, body }
}

/// A constraint of a drawn kind.
fn constraint(random: &mut Random, atoms: usize) -> Constraint {
    Constraint { kind: *random.pick(&KINDS), body: body(random, atoms) }
}

/// Prices of `atoms` atoms: none, few that differ, what a line can give, or any 32-bit numbers.
pub fn prices(random: &mut Random, atoms: usize) -> Vec<u32> {
    let most = *random.pick(&[0, 1, 2, 2_000_000, u32::MAX]);
    (0..atoms).map(|_| random.between(0, most as usize) as u32).collect()
}

/// A case of the shape `shape`, of edition 1.
pub fn drawn(random: &mut Random, shape: Shape) -> Case {
    let Shape { atoms, causes, .. } = shape;
    let defined = atoms - causes;
    let mut heads: Vec<usize> = (0..shape.clauses).map(|at| causes + at % defined.max(1)).collect();
    for head in heads.iter_mut().skip(defined) {
        *head = causes + random.below(defined);
    }
    let mut order: Vec<usize> = (0..atoms).collect();
    random.shuffle(&mut order);
    random.shuffle(&mut heads);
    let clauses = heads.iter().enumerate().map(|(at, head)| clause(random, order[*head], at, atoms)).collect();
    let constraints = (0..shape.constraints).map(|_| constraint(random, atoms)).collect();
    let observations = (0..*random.pick(&[0, 1, 1, 1, 2])).map(|_| literal(random, atoms)).collect();
    let names = (0..atoms).map(|i| format!("n{i}")).collect();
    let mut queries: Vec<Formula<usize>> = Vec::new();
    for left in (0..shape.queries).rev() {
        let nodes = if left == 0 { shape.nodes } else { random.between(1, shape.nodes) };
        queries.push(sized(random, atoms, nodes));
    }
    let edition = Edition::First;
    Case { names, clauses, constraints, observations, queries, prices: prices(random, atoms), edition }
}

/// A case of the shape `shape`, of edition 2: drawn heads have assumptions alone, as many as leave `most` settings.
pub fn second(random: &mut Random, shape: Shape, most: u128) -> Case {
    let mut case = Case { edition: Edition::Second, ..drawn(random, shape) };
    let mut heads: Vec<usize> = case.clauses.iter().map(|clause| clause.head).collect();
    random.shuffle(&mut heads);
    for head in heads {
        let mut other = case.clone();
        other.clauses.iter_mut().filter(|clause| clause.head == head).for_each(|clause| clause.body = Body::False);
        if random.chance(30) && settings(&other.causes()) <= most {
            case = other;
        }
    }
    case
}

/// A word of drawn bits, now and then a small number or all ones.
pub fn word(random: &mut Random) -> u64 {
    match random.below(4) {
        0 => random.below(200) as u64,
        1 => u64::MAX,
        _ => random.below(usize::MAX) as u64,
    }
}

/// `held` with drawn entries past its counts: in each part of the formula table behind its nodes, in the parts and the
/// node counts past the formulas, and in the prices past the atoms.
pub fn strewn(random: &mut Random, held: &Held) -> Held {
    let mut other = held.clone();
    let [atoms, clauses, constraints, ..] = held.record[..] else { panic!("a record") };
    other.prices[PRICES.min(atoms as usize)..].fill_with(|| word(random) as u32);
    other.clauses[3 * clauses as usize..].fill_with(|| word(random));
    other.constraints[3 * constraints as usize..].fill_with(|| word(random));
    other.record[NODES + held.formulas()..EDITION].fill_with(|| word(random));
    for (q, part) in other.formula.chunks_exact_mut(PART_BYTES).enumerate() {
        let nodes = if q < held.formulas() { held.nodes(q) } else { 0 };
        part[nodes..].fill_with(|| word(random) as u8);
    }
    other
}
