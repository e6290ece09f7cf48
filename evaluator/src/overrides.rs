//! Drawn files with an edition line: causes of two choices and of three, atoms that have more than assumptions, and
//! readings that further causes undo.
//!
//! From: document 02, [10].

use crate::families::{constraint, finished, literal, queries};
use crate::names::names;
use crate::random::Random;

/// An edition line, in three of four draws of edition 2.
pub fn edition_line(random: &mut Random) -> String {
    format!("(edition {})", random.pick(&[1, 2, 2, 2]))
}

/// `lines` with `line` before them, behind them or at a drawn place.
pub fn placed(random: &mut Random, mut lines: Vec<String>, line: String) -> Vec<String> {
    let drawn = random.between(0, lines.len());
    let at = *random.pick(&[0, drawn, drawn, lines.len()]);
    lines.insert(at, line);
    lines
}

/// An assumption of each of `names`, of some of them two or three.
fn assumptions(random: &mut Random, names: &[String]) -> Vec<String> {
    let mut lines = Vec::new();
    for name in names {
        let count = *random.pick(&[1, 1, 1, 2, 3]);
        lines.extend(vec![format!("(false {name})"); count]);
    }
    lines
}

/// Clauses of `name`, an assumption among them, that leave it no cause: a fact or a rule over `atoms` beside it, in a
/// drawn order.
fn beside_an_assumption(random: &mut Random, name: &str, atoms: &[String]) -> Vec<String> {
    let atom = random.pick(atoms);
    let other = match random.below(3) {
        0 => format!("(true {name})"),
        _ => format!("(if {name} {})", literal(random, atom, 40)),
    };
    let mut lines = vec![format!("(false {name})"), other];
    random.shuffle(&mut lines);
    lines
}

/// Two or three of `atoms`, or one if there is no other.
fn some(random: &mut Random, atoms: &[String]) -> Vec<String> {
    let mut drawn = atoms.to_vec();
    random.shuffle(&mut drawn);
    drawn.truncate(random.between(2, 3));
    drawn
}

/// The rules of `head` over `atoms`: true if all of some are true or all false, if one of two is true and the other
/// false, if those of a drawn body are, or if an atom is not and another one is.
fn rules(random: &mut Random, head: &str, atoms: &[String]) -> Vec<String> {
    let some = some(random, atoms);
    let (first, last) = (&some[0], &some[some.len() - 1]);
    match random.below(5) {
        0 | 1 => {
            let none: Vec<String> = some.iter().map(|name| format!("(not {name})")).collect();
            vec![format!("(if {head} {})", some.join(" ")), format!("(if {head} {})", none.join(" "))]
        }
        2 => vec![format!("(if {head} {first} (not {last}))"), format!("(if {head} (not {first}) {last})")],
        3 => {
            let count = random.between(1, 3);
            let body = |random: &mut Random| some.iter().map(|n| literal(random, n, 45)).collect::<Vec<_>>().join(" ");
            (0..count).map(|_| format!("(if {head} {})", body(random))).collect()
        }
        _ => vec![format!("(if {head} (not {first}))"), format!("(if {head} {last})")],
    }
}

/// The lines of a file with `threes` causes without clauses and `twos` atoms that have assumptions alone, one of either
/// at least; some atoms have a rule or a fact beside an assumption.
pub fn overrides(random: &mut Random, threes: usize, twos: usize) -> Vec<String> {
    let (heads, mixed) = (random.between(1, 3), *random.pick(&[0, 0, 1, 2]));
    let causes = threes + twos;
    let atoms = names(random, causes + mixed + heads);
    let mut lines = assumptions(random, &atoms[threes..causes]);
    for at in causes..causes + mixed {
        lines.extend(beside_an_assumption(random, &atoms[at], &atoms[..at]));
    }
    for at in causes + mixed..atoms.len() {
        lines.extend(rules(random, &atoms[at], &atoms[..at]));
    }
    random.shuffle(&mut lines);
    for head in &atoms[causes + mixed..] {
        if random.chance(70) {
            lines.push(format!("(seen {})", literal(random, head, 20)));
        }
    }
    if random.chance(30) {
        let (first, second) = (random.pick(&atoms[..causes]), random.pick(&atoms));
        let body = format!("{first} {}", literal(random, second, 50));
        lines.push(constraint(random, &body));
    }
    let depth = random.between(1, 3);
    let queries = queries(random, &atoms, depth);
    finished(random, lines, queries, &atoms)
}
