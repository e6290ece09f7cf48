//! Families of bodies around the limit of a line's literals: lines that are read, tables by hand, and drawn records, of
//! which those with a longer body are sound and written, and their texts are refused when read.
//!
//! From: document 02, [9].

use crate::calls::{read, ReadDue, Sizes};
use crate::drawn::{drawn, strewn, Shape};
use crate::due;
use crate::held::{Held, FORMULAS, NODES};
use crate::limits::accepted;
use crate::tests::{differing, Complaints, Tests};
use crate::wrappers::{record, tables};
use crate::write_call::{as_due, PAGE};
use crate::writing::strewn_names;
use causes::lent::{self, Tables};
use causes::Refusal;
use evaluator::case::{Body, Case};
use evaluator::file::FILE_BYTES;
use evaluator::formula::Literal;
use evaluator::random::Random;

/// The plain and the negated atoms of a body, bit i for atom i.
pub type Bits = [u64; 2];

/// The forms with a body, by what stands before their literals.
const FRONTS: [&str; 3] = ["if a", "never", "avoid"];

/// The literals that a line has in turn, and the bits of one with all of them.
const TURNS: [([&str; 2], Bits); 4] =
    [(["a", "a"], [1, 0]), (["(not a)", "(not a)"], [0, 1]), (["a", "(not a)"], [1, 1]), (["a", "(not b)"], [1, 2])];

/// What reading is due for a line `form` of `FRONTS` with `count` literals of the bits `bits`, the line number `line`.
fn line_due(form: usize, count: usize, bits: Bits, line: u64) -> ReadDue {
    if count > 11 {
        return due::refused(20, line);
    }
    let [plain, negated] = bits;
    let mut held = Held::empty();
    let atoms = if negated == 2 { 2 } else { 1 };
    (held.record[0], held.record[FORMULAS], held.record[NODES]) = (atoms, 1, 1);
    held.names[0] = b'a';
    held.names[16] = if atoms == 2 { b'b' } else { 0 };
    if form == 0 {
        held.record[1] = 1;
        held.clauses[..3].copy_from_slice(&[2 * 64, plain, negated]);
    } else {
        held.record[2] = 1;
        held.constraints[..3].copy_from_slice(&[plain, negated, form as u64 - 1]);
    }
    ReadDue { refusal: 0, answer: [&[0], held.record.as_slice()].concat(), tables: Some(held) }
}

/// Lines of 1 to 24 literals of each form, before a query and behind it: up to 11 are read, with a 12th it is refused,
/// however few of them are different.
fn lines(tests: &mut Tests) {
    tests.family("read: lines of 1 to 24 literals, tables by hand");
    for (form, front) in FRONTS.into_iter().enumerate() {
        for (turn, bits) in TURNS {
            for count in 1..=24 {
                let body: String = turn.into_iter().cycle().take(count).map(|literal| format!(" {literal}")).collect();
                let bits = if count == 1 { line_bits(turn[0]) } else { bits };
                let line = format!("({front}{body})\n");
                for (file, at) in [(format!("(query a)\n{line}"), 2), (format!("{line}(query a)\n"), 1)] {
                    let due = line_due(form, count, bits, at);
                    tests.require("the evaluator's tables", due::read(file.as_bytes()) == due);
                    tests.call(|| file.clone(), read(file.as_bytes(), Sizes::FULL, false, &due));
                }
            }
        }
    }
}

/// The bits of the one literal `literal`, of the atom `a`.
fn line_bits(literal: &str) -> Bits {
    [u64::from(literal == "a"), u64::from(literal != "a")]
}

/// A body of 9 to 14 drawn literals, all different, over `atoms` atoms, of which there are 8 and more.
fn drawn_body(random: &mut Random, atoms: usize) -> Vec<Literal<usize>> {
    let mut all: Vec<Literal<usize>> = (0..2 * atoms).map(|i| Literal { atom: i / 2, negated: i % 2 == 1 }).collect();
    random.shuffle(&mut all);
    all.truncate(random.between(9, 14));
    all
}

/// A drawn case, some bodies of which have 9 to 14 literals.
fn drawn_case(random: &mut Random) -> Case {
    let causes = random.below(4);
    let atoms = causes + random.between(8, 16);
    let shape = Shape { atoms, causes, clauses: atoms + 4, constraints: random.below(5), queries: 1, nodes: 5 };
    let mut case = drawn(random, shape);
    let percent = *random.pick(&[5, 15, 40]);
    for clause in &mut case.clauses {
        if matches!(clause.body, Body::All(_)) && random.chance(percent) {
            clause.body = Body::All(drawn_body(random, atoms));
        }
    }
    for constraint in &mut case.constraints {
        if random.chance(percent) {
            constraint.body = drawn_body(random, atoms);
        }
    }
    case.prices.iter_mut().for_each(|price| *price %= 2_000_001);
    case
}

/// The line of the text of `held` in which the first body of more than 11 bits stands.
fn long_line(held: &Held) -> Option<u64> {
    let [atoms, clauses, constraints, ..] = held.record[..] else { panic!("a record") };
    let of_clauses = held.clauses.chunks_exact(3).take(clauses as usize).map(|w| [w[1], w[2]]);
    let of_constraints = held.constraints.chunks_exact(3).take(constraints as usize).map(|w| [w[0], w[1]]);
    let mut bodies = of_clauses.chain(of_constraints).map(|[p, q]| p.count_ones() + q.count_ones());
    bodies.position(|n| n > 11).map(|at| atoms + at as u64 + 1)
}

/// The complaints on the text of `case`, which `held` holds, by the library alone: it is refused with 20 in its line, or
/// read as the same record and tables.
fn way_back(case: &Case, held: &Held) -> Complaints {
    let (record, tables) = (record(case, held), tables(held));
    let mut out = vec![0; FILE_BYTES];
    let length = lent::write(&record, &tables, &mut out);
    let mut again = Tables::new();
    let back = length.and_then(|length| lent::read(&out[..length], &mut again));
    match long_line(held) {
        Some(line) => differing(Err(Refusal::from_number(20, line)), back),
        None => differing((Ok(record), &tables), (back, &again)),
    }
}

/// Drawn records, of which some have no body of more than 11 literals.
fn drawn_records(tests: &mut Tests) {
    let cases: Vec<Case> = (0..400).map(|seed| drawn_case(&mut Random::new(seed))).collect();
    tests.family("sound: drawn bodies around 11 literals");
    for (seed, case) in cases.iter().enumerate() {
        let held = strewn(&mut Random::new(seed as u64), &Held::of(case));
        accepted(tests, &format!("seed {seed}"), case.clone(), &held);
    }
    tests.family("write: drawn bodies around 11 literals");
    let mut met = [0, 0];
    for (seed, case) in cases.iter().enumerate() {
        let held = strewn_names(&mut Random::new(seed as u64), &Held::of(case));
        met[usize::from(long_line(&held).is_some())] += 1;
        tests.call(|| format!("seed {seed}"), as_due(&held, PAGE));
    }
    tests.require("records with and without a long body", met.iter().all(|n| *n > 100));
    tests.family("write: the way back, drawn bodies around 11 literals");
    for (seed, case) in cases.iter().enumerate() {
        tests.call(|| format!("seed {seed}"), way_back(case, &Held::of(case)));
    }
}

/// All families of lines and of drawn records.
pub fn run(tests: &mut Tests) {
    lines(tests);
    drawn_records(tests);
}
