//! Drawn files of every family with long bodies added to their lines.
//!
//! From: document 02, [9].

use crate::families::literal;
use crate::file::LINE_BYTES;
use crate::random::Random;
use crate::tree::tokens;

/// What a line has beside its literals at most: the form's word, a head and brackets.
const BESIDE: usize = 30;

/// The names that head a clause of `lines` or have an atom line.
fn names_in(lines: &[String]) -> Vec<String> {
    let all = lines.iter().map(|line| tokens(line));
    all.filter(|words| ["if", "true", "false", "atom"].contains(&words[1].as_str()))
        .map(|words| words[2].clone())
        .collect()
}

/// A line of a drawn form with `count` literals of `names`, or with as many as there is room for.
fn long_line(random: &mut Random, names: &[String], count: usize) -> String {
    let mut body = String::new();
    for _ in 0..count {
        let name = random.pick(names);
        let next = literal(random, name, 35);
        if body.len() + next.len() < LINE_BYTES - BESIDE {
            body = format!("{body} {next}");
        }
    }
    let rule = format!("if {}", random.pick(names));
    format!("({}{body})", random.pick(&[rule.as_str(), rule.as_str(), "never", "avoid"]))
}

/// `lines`, of which one is a clause, with one to three more in drawn places that have up to `most` literals, three
/// fewer at least.
pub fn lengthened(random: &mut Random, mut lines: Vec<String>, most: usize) -> Vec<String> {
    let names = names_in(&lines);
    for _ in 0..random.between(1, 3) {
        let count = random.between(most - 3, most);
        let line = long_line(random, &names, count);
        lines.insert(random.between(0, lines.len()), line);
    }
    lines
}
