//! Families of records made elsewhere with bodies that are too long for a line, all by hand: they are settled, asked,
//! layered and written as others are, and their texts are refused when read.
//!
//! From: document 02, [9].

use crate::bodies::Bits;
use crate::calls::{read, ReadDue, Sizes};
use crate::drawn::strewn;
use crate::due;
use crate::held::Held;
use crate::limits::accepted;
use crate::sound::broken;
use crate::tests::{Complaints, Tests};
use crate::write_call::{write, Page, WriteDue, PAGE};
use crate::writing::strewn_names;
use evaluator::case::{Body, Case, Clause};
use evaluator::cause::Edition;
use evaluator::constraint::{Constraint, Kind, KINDS};
use evaluator::formula::{Formula, Literal};
use evaluator::random::Random;

/// The atoms of the records made here; all but the first three have a fact or an assumption.
const ATOMS: usize = 16;
const PLAIN_CLAUSES: usize = ATOMS - 3;

/// The first body with a 12th literal of a record.
#[derive(Clone, Copy)]
enum First {
    Rule(usize),
    Constraint(usize),
    Nowhere,
}

/// How many literals the rules and the constraints of a record have, and the first body that is too long for a line.
const LAYOUTS: [(&[u32], &[u32], First); 12] = [
    (&[10, 11], &[11, 10], First::Nowhere),
    (&[12], &[], First::Rule(0)),
    (&[12, 11], &[11], First::Rule(0)),
    (&[11, 12], &[12], First::Rule(1)),
    (&[1, 11, 2, 12], &[1], First::Rule(3)),
    (&[1, 13, 12], &[], First::Rule(1)),
    (&[16, 16, 16], &[16], First::Rule(0)),
    (&[11], &[12], First::Constraint(0)),
    (&[], &[12, 11], First::Constraint(0)),
    (&[1, 11], &[11, 1, 12], First::Constraint(2)),
    (&[], &[11, 13, 12], First::Constraint(1)),
    (&[], &[1, 1, 16], First::Constraint(2)),
];

/// The lowest `count` bits.
fn ones(count: u32) -> u64 {
    (1 << count) - 1
}

/// Ways to make a body of so many literals: plain, negated, plain and others negated, the same plain and negated.
const WAYS: [fn(u32) -> Bits; 4] =
    [|n| [ones(n), 0], |n| [0, ones(n)], |n| [ones(n / 2), ones(n) - ones(n / 2)], |n| [ones(n - n / 2), ones(n / 2)]];

/// A record made here: its case, its text by hand, and the line in which that is refused with 20.
struct Made {
    name: String,
    case: Case,
    text: String,
    line: Option<u64>,
}

/// The literals of `bits`, plain ones first.
fn literals([plain, negated]: Bits) -> Vec<Literal<usize>> {
    let of =
        |bits: u64, negated| (0..64).filter(move |a| bits >> a & 1 == 1).map(move |atom| Literal { atom, negated });
    of(plain, false).chain(of(negated, true)).collect()
}

/// The text of `bits` behind a word, with atoms named by `names`.
fn body_text(names: &[String], bits: Bits) -> String {
    let text = |l: Literal<usize>| match l.negated {
        false => format!(" {}", names[l.atom]),
        true => format!("(not {})", names[l.atom]),
    };
    literals(bits).into_iter().map(text).collect()
}

/// The record with rules of the bodies `rules` and constraints of the bodies `constraints`, and with facts and
/// assumptions before the rules or behind them; `first` tells the line.
fn made(name: String, rules: &[Bits], constraints: &[Bits], facts_first: bool, first: First) -> Made {
    let names: Vec<String> = (b'a'..).take(ATOMS).map(|letter| char::from(letter).to_string()).collect();
    let mut clauses: Vec<(Clause, String)> = Vec::new();
    for (head, bits) in rules.iter().enumerate() {
        let clause = Clause { head, body: Body::All(literals(*bits)) };
        clauses.push((clause, format!("(if {}{})\n", names[head], body_text(&names, *bits))));
    }
    let facts = (3..ATOMS).map(|head| match head % 2 {
        0 => (Clause { head, body: Body::True }, format!("(true {})\n", names[head])),
        _ => (Clause { head, body: Body::False }, format!("(false {})\n", names[head])),
    });
    let at = if facts_first { 0 } else { clauses.len() };
    clauses.splice(at..at, facts);
    let kind = |at: usize| KINDS[at % KINDS.len()];
    let line = |(at, bits): (usize, &Bits)| format!("({}{})\n", kind(at).word(), body_text(&names, *bits));
    let atoms: String = names.iter().map(|name| format!("(atom {name})\n")).collect();
    let rows: String = clauses.iter().map(|(_, line)| line.as_str()).collect();
    let text = format!("{atoms}{rows}{}(query a)\n", constraints.iter().enumerate().map(line).collect::<String>());
    let constraint = |(at, bits): (usize, &Bits)| Constraint { kind: kind(at), body: literals(*bits) };
    let before = match first {
        First::Rule(at) => Some(at + if facts_first { PLAIN_CLAUSES } else { 0 }),
        First::Constraint(at) => Some(PLAIN_CLAUSES + rules.len() + at),
        First::Nowhere => None,
    };
    let case = Case {
        names: names.clone(),
        clauses: clauses.into_iter().map(|(clause, _)| clause).collect(),
        constraints: constraints.iter().enumerate().map(constraint).collect(),
        observations: Vec::new(),
        queries: vec![Formula::Atom(0)],
        prices: vec![0; ATOMS],
        edition: Edition::First,
    };
    Made { name, case, text, line: before.map(|before| (ATOMS + before + 1) as u64) }
}

/// All records made here.
fn all_made() -> Vec<Made> {
    let mut all = Vec::new();
    for (layout, (rules, constraints, first)) in LAYOUTS.into_iter().enumerate() {
        for (at, way) in WAYS.into_iter().enumerate() {
            for facts_first in [false, true] {
                let bodies = |counts: &[u32]| counts.iter().map(|n| way(*n)).collect::<Vec<_>>();
                let name = format!("layout {layout}, way {at}, facts first: {facts_first}");
                all.push(made(name, &bodies(rules), &bodies(constraints), facts_first, first));
            }
        }
    }
    all
}

/// Reads `text`, which is to be refused with 20 in `line`, or else is to give what `held` has.
fn read_back(text: &str, held: &Held, line: Option<u64>) -> Complaints {
    let answer = [&[0], held.record.as_slice()].concat();
    let due = match line {
        Some(line) => due::refused(20, line),
        None => ReadDue { refusal: 0, answer, tables: Some(held.clone()) },
    };
    read(text.as_bytes(), Sizes::FULL, false, &due)
}

/// Records with bodies of up to 16 literals: settled, asked, layered, written, and their texts read.
fn records(tests: &mut Tests) {
    let all = all_made();
    tests.family("sound: bodies of more than 11 literals");
    for (at, Made { name, case, .. }) in all.iter().enumerate() {
        let held = strewn(&mut Random::new(at as u64), &Held::of(case));
        tests.require(&format!("{name}: sound"), broken(&held).is_empty() && held.full().case().is_some());
        accepted(tests, name, case.clone(), &held);
    }
    tests.family("write: bodies of more than 11 literals, texts by hand");
    for (at, Made { name, case, text, .. }) in all.iter().enumerate() {
        let held = strewn_names(&mut Random::new(at as u64), &Held::of(case));
        for out in [0, text.len() - 1, text.len(), PAGE.out] {
            let due = if out < text.len() { WriteDue::refused(19) } else { WriteDue::text(text) };
            tests.call(|| format!("{name}, {out} bytes"), write(&held, Page::of(out), &due));
        }
    }
    tests.family("read: texts with bodies of more than 11 literals, lines by hand");
    for Made { name, case, text, line } in &all {
        tests.call(|| name.clone(), read_back(text, &Held::of(case), *line));
    }
}

/// A constraint of up to 70 literals over 64 atoms of one or two letters: 67 of them fit into a line.
fn longest(tests: &mut Tests) {
    tests.family("write: a constraint of up to 70 literals, texts by hand");
    let one: Vec<String> = (b'a'..=b'z').map(|letter| char::from(letter).to_string()).collect();
    let two = one.iter().flat_map(|first| one.iter().map(move |second| format!("{first}{second}")));
    let names: Vec<String> = one.iter().cloned().chain(two).take(64).collect();
    let rows = |front: &str| names.iter().map(|name| format!("({front} {name})\n")).collect::<String>();
    for count in 1..=70 {
        let all = [0..count.min(64), 0..count.max(64) - 64];
        let bits = all.map(|atoms| atoms.fold(0, |bits, atom| bits | 1u64 << atom));
        let case = Case {
            names: names.clone(),
            clauses: (0..64).map(|head| Clause { head, body: Body::True }).collect(),
            constraints: vec![Constraint { kind: Kind::Avoid, body: literals(bits) }],
            observations: Vec::new(),
            queries: vec![Formula::Atom(0)],
            prices: vec![0; 64],
            edition: Edition::First,
        };
        let line = format!("(avoid{})", body_text(&names, bits));
        let text = format!("{}{}{line}\n(query a)\n", rows("atom"), rows("true"));
        let held = Held::of(&case);
        tests.require(&format!("{count} literals, {} bytes", line.len()), (line.len() > 200) == (count > 67));
        let due = if count > 67 { WriteDue::refused(18) } else { WriteDue::text(&text) };
        tests.call(|| format!("{count} literals"), write(&held, PAGE, &due));
        if count <= 67 {
            tests.call(|| format!("{count} literals read"), read_back(&text, &held, (count > 11).then_some(129)));
        }
    }
}

/// All families of records with long bodies.
pub fn run(tests: &mut Tests) {
    records(tests);
    longest(tests);
}
