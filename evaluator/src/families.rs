//! Families of lawful case files, as lines of forms: scattered and layered programs, diagnoses, wide
//! programs and chains.

use crate::constraint::KINDS;
use crate::file::{ATOMS, CLAUSES, QUERIES};
use crate::names::names;
use crate::prices::cost_lines;
use crate::random::Random;

/// `name` or its negation, the latter in `percent` of 100 draws.
pub fn literal(random: &mut Random, name: &str, percent: usize) -> String {
    if random.chance(percent) {
        format!("(not {name})")
    } else {
        name.to_string()
    }
}

/// A body of one to four drawn literals, now and then with a repeat or with an atom and its negation.
fn body(random: &mut Random, atoms: &[String]) -> String {
    let mut literals: Vec<String> = Vec::new();
    for _ in 0..random.between(1, 3) {
        let name = random.pick(atoms);
        literals.push(literal(random, name, 35));
    }
    match random.below(20) {
        0 => literals.push(literals[0].clone()),
        1 => {
            let name = random.pick(atoms);
            literals.extend([name.clone(), format!("(not {name})")]);
        }
        _ => (),
    }
    random.shuffle(&mut literals);
    literals.join(" ")
}

/// A constraint of a drawn kind with the body `body`.
pub fn constraint(random: &mut Random, body: &str) -> String {
    format!("({} {body})", random.pick(&KINDS).word())
}

/// A formula over `atoms` of depth at most `depth`.
pub fn formula(random: &mut Random, atoms: &[String], depth: usize) -> String {
    if depth <= 1 || random.chance(20) {
        return random.pick(atoms).clone();
    }
    let left = formula(random, atoms, depth - 1);
    if random.chance(20) {
        return format!("(not {left})");
    }
    let right = formula(random, atoms, depth - 1);
    format!("({} {left} {right})", random.pick(&["and", "or", "then", "same"]))
}

/// A clause for `head`, with a body over `atoms` if it is a rule.
fn clause(random: &mut Random, head: &str, atoms: &[String]) -> String {
    match random.below(20) {
        0 | 1 => format!("(true {head})"),
        2..=5 => format!("(false {head})"),
        _ => format!("(if {head} {})", body(random, atoms)),
    }
}

/// The lines of one query in half of the draws, otherwise of up to 16, each over `atoms` and of depth at most `depth`.
pub fn queries(random: &mut Random, atoms: &[String], depth: usize) -> Vec<String> {
    let count = match random.below(10) {
        0..=4 => 1,
        5..=7 => random.between(2, 4),
        8 => random.between(5, QUERIES - 1),
        _ => QUERIES,
    };
    (0..count).map(|_| format!("(query {})", formula(random, atoms, depth))).collect()
}

/// Readings and constraints: `heads` are read more often than other atoms.
fn readings(random: &mut Random, heads: &[String], atoms: &[String]) -> Vec<String> {
    let mut lines = Vec::new();
    for _ in 0..*random.pick(&[0, 1, 1, 1, 2, 2, 3]) {
        let from = if heads.is_empty() || random.chance(20) { atoms } else { heads };
        let name = random.pick(from);
        lines.push(format!("(seen {})", literal(random, name, 25)));
    }
    for _ in 0..*random.pick(&[0, 0, 0, 1, 1, 2, 3]) {
        let body = body(random, atoms);
        lines.push(constraint(random, &body));
    }
    lines
}

/// The lines of a program with at most `causes` causes and `defined` atoms that head clauses; in a layered one the
/// bodies hold causes and earlier heads only.
pub fn program(random: &mut Random, causes: usize, defined: usize, layered: bool) -> Vec<String> {
    let atoms = names(random, causes + defined);
    let mut lines = Vec::new();
    for at in causes..atoms.len() {
        let within = if layered { &atoms[..at] } else { &atoms[..] };
        for _ in 0..*random.pick(&[1, 1, 1, 2, 2, 3]) {
            lines.push(if within.is_empty() {
                format!("(false {})", atoms[at])
            } else {
                clause(random, &atoms[at], within)
            });
        }
    }
    asked(random, lines, &atoms[causes..], &atoms)
}

/// The lines of a diagnosis: `readings` heads, each with rules from one or two causes, or an earlier head, under an
/// abnormality that is assumed false; some of the heads are read.
pub fn diagnosis(random: &mut Random, causes: usize, readings: usize) -> Vec<String> {
    let atoms = names(random, causes + readings + 1);
    let (abnormal, sources) = atoms.split_last().expect("a name");
    let mut lines = vec![format!("(false {abnormal})")];
    for at in causes..sources.len() {
        for _ in 0..random.between(1, 3) {
            let (first, second) = (random.below(at), random.below(causes));
            let mut body = vec![literal(random, &sources[first], 15)];
            if random.chance(40) {
                body.push(literal(random, &sources[second], 30));
            }
            if random.chance(50) {
                body.push(format!("(not {abnormal})"));
            }
            lines.push(format!("(if {} {})", sources[at], body.join(" ")));
        }
    }
    for _ in 0..random.between(1, 2) {
        let head = random.between(causes, sources.len() - 1);
        lines.push(format!("(seen {})", literal(random, &sources[head], 20)));
    }
    if random.chance(25) {
        let (first, second) = (random.pick(&sources[..causes]), random.pick(sources));
        let body = format!("{first} {}", literal(random, second, 50));
        lines.push(constraint(random, &body));
    }
    let depth = random.between(1, 3);
    let from = if random.chance(60) { &sources[..causes] } else { sources };
    let queries = queries(random, from, depth);
    finished(random, lines, queries, &atoms)
}

/// The lines of a program with many clauses on up to 64 atoms.
pub fn wide(random: &mut Random, causes: usize) -> Vec<String> {
    let defined = random.between(20, ATOMS - causes);
    let atoms = names(random, causes + defined);
    let mut lines = Vec::new();
    let count = random.between(defined, CLAUSES - 4);
    for at in 0..count {
        let head = if at < defined { &atoms[causes + at] } else { random.pick(&atoms[causes..]) };
        lines.push(clause(random, head, &atoms));
    }
    asked(random, lines, &atoms[causes..], &atoms)
}

/// The lines of a chain of `links` rules behind `causes` starts, with assumed abnormalities in some of the links.
pub fn chain(random: &mut Random, causes: usize, links: usize) -> Vec<String> {
    let atoms = names(random, causes + links + 1);
    let (starts, rest) = atoms.split_at(causes);
    let (abnormal, chain) = (&rest[0], &rest[1..]);
    let mut lines = vec![format!("(false {abnormal})")];
    for start in starts {
        let start = literal(random, start, 15);
        lines.push(format!("(if {} {start})", chain[0]));
    }
    for at in 1..chain.len() {
        let before = literal(random, &chain[at - 1], 15);
        let unless = if random.chance(40) { format!(" (not {abnormal})") } else { String::new() };
        lines.push(format!("(if {} {before}{unless})", chain[at]));
    }
    let end = literal(random, &chain[chain.len() - 1], 30);
    lines.push(format!("(seen {end})"));
    let queries = if random.chance(50) { queries(random, starts, 3) } else { queries(random, &atoms, 1) };
    finished(random, lines, queries, &atoms)
}

/// `clauses` with readings, constraints and queries behind them.
fn asked(random: &mut Random, mut clauses: Vec<String>, heads: &[String], atoms: &[String]) -> Vec<String> {
    clauses.extend(readings(random, heads, atoms));
    let depth = *random.pick(&[1, 1, 2, 2, 3, 4]);
    let queries = queries(random, atoms, depth);
    finished(random, clauses, queries, atoms)
}

/// An atom line for each of `names`, in their order.
pub fn atom_lines(names: &[String]) -> Vec<String> {
    names.iter().map(|name| format!("(atom {name})")).collect()
}

/// Some of `names`, now and then all and often none, in a drawn order.
fn some_names(random: &mut Random, names: &[String]) -> Vec<String> {
    let percent = *random.pick(&[0, 0, 0, 30, 100]);
    let mut kept: Vec<String> = names.iter().filter(|_| random.chance(percent)).cloned().collect();
    random.shuffle(&mut kept);
    kept
}

/// `lines`, one of them repeated now and then, with atom lines of some of `atoms` before them and cost lines and
/// `queries` behind them or, in half of the draws, in a drawn order.
pub fn finished(random: &mut Random, mut lines: Vec<String>, queries: Vec<String>, atoms: &[String]) -> Vec<String> {
    if !lines.is_empty() && random.chance(25) {
        let again = random.pick(&lines).clone();
        lines.insert(0, again);
    }
    let named = some_names(random, atoms);
    lines.splice(0..0, atom_lines(&named));
    lines.extend(cost_lines(random, atoms));
    lines.extend(queries);
    if random.chance(50) {
        random.shuffle(&mut lines);
    }
    lines
}
