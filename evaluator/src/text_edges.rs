//! Files whose written text stands at its limits: a line of about 200 bytes, or a text of about 32,768.
//!
//! From: document 02, [8], [9].

use crate::families::literal;
use crate::file::{FILE_BYTES, LINE_BYTES, LITERALS, NAME_BYTES};
use crate::layout::joined;
use crate::names::drawn_name;
use crate::random::Random;

/// A file that is read, and whether its text passes a limit.
pub struct Edged {
    pub bytes: Vec<u8>,
    pub is_past: bool,
}

/// The most bytes that a line or a text is off its limit.
const OFF: usize = 3;

/// A length within `OFF` of `limit`, and whether it is past it.
fn around(random: &mut Random, limit: usize) -> (usize, bool) {
    let length = random.between(limit - OFF, limit + OFF);
    (length, length > limit)
}

/// The lines of `names` as facts and assumptions, so that none of them is a cause.
fn defined(random: &mut Random, names: &[String]) -> Vec<String> {
    names.iter().map(|name| format!("({} {name})", random.pick(&["true", "false"]))).collect()
}

/// A file with a rule or a constraint whose written line has about 200 bytes; where it stands, each negated literal
/// comes before a plain one, so that no space is needed between them.
pub fn line_edge(random: &mut Random) -> Edged {
    let (length, is_past) = around(random, LINE_BYTES);
    let word = *random.pick(&["if", "never", "avoid"]);
    let heads = usize::from(word == "if");
    let (negated, plain) = (LITERALS / 2, LITERALS - LITERALS / 2);
    // what a written line has beside its names: brackets, the form's word, `(not )`, spaces before plain names and head
    let beside = 2 + word.len() + 6 * negated + plain + heads;
    let lengths = split(random, length - beside, heads + LITERALS);
    let names: Vec<String> = lengths.iter().enumerate().map(|(at, n)| numbered(random, at, *n)).collect();
    let (head, body) = names.split_at(heads);
    let pair = |pair: &[String]| match pair {
        [first, second] => format!("(not {first}){second}"),
        last => format!(" {}", last.concat()),
    };
    let literals: String = body.chunks(2).map(pair).collect();
    let head: String = head.iter().map(|name| format!(" {name}")).collect();
    let mut lines = defined(random, &names);
    lines.push(format!("({word}{head}{literals})"));
    random.shuffle(&mut lines);
    lines.push(format!("(query {})", names[0]));
    Edged { bytes: file(&lines), is_past }
}

/// A name of `length` bytes, at least 2, that no other place has.
fn numbered(random: &mut Random, at: usize, length: usize) -> String {
    let letter = char::from(b'a' + at as u8);
    let rest = drawn_name(random, length - 1);
    format!("{letter}{rest}")
}

/// `count` numbers of 2 to 16 that make `sum`.
fn split(random: &mut Random, sum: usize, count: usize) -> Vec<usize> {
    let mut lengths = vec![sum / count; count];
    lengths[..sum % count].iter_mut().for_each(|n| *n += 1);
    for _ in 0..count {
        let (one, other) = (random.below(count), random.below(count));
        if one != other && lengths[one] > 2 && lengths[other] < NAME_BYTES {
            lengths[one] -= 1;
            lengths[other] += 1;
        }
    }
    lengths
}

/// The bytes of `lines`.
fn file(lines: &[String]) -> Vec<u8> {
    joined(&lines.iter().map(|line| line.clone().into_bytes()).collect::<Vec<_>>(), true)
}

/// A file whose written text has about 32,768 bytes; it has no atom lines itself, and so is shorter.
pub fn text_edge(random: &mut Random) -> Edged {
    let (length, is_past) = around(random, FILE_BYTES);
    let short: Vec<String> = (1..=NAME_BYTES).map(|n| "s".repeat(n)).collect();
    let more: Vec<String> = (0..random.between(20, 40)).map(|at| format!("long-name-no-{at}")).collect();
    let names = [short.clone(), more].concat();
    let query = format!("(query {})", short[0]);
    let mut lines = defined(random, &names);
    let atoms: usize = names.iter().map(|name| format!("(atom {name})\n").len()).sum();
    let own: usize = lines.iter().map(|line| line.len() + 1).sum();
    let mut left = length - atoms - own - query.len() - 1;
    while left > 2 * LINE_BYTES {
        let line = long_rule(random, &names);
        left -= line.len() + 1;
        lines.push(line);
    }
    // a fact of the name of n bytes takes n + 8; what is left is parted into such
    while left > 48 {
        lines.push(format!("(true {})", short[15]));
        left -= 24;
    }
    let first = left / 2;
    for bytes in [first, left - first] {
        lines.push(format!("(true {})", short[bytes - 9]));
    }
    random.shuffle(&mut lines);
    lines.push(query);
    Edged { bytes: file(&lines), is_past }
}

/// A long rule over `names`, with its plain literals before the negated ones and no spaces but those that are needed.
fn long_rule(random: &mut Random, names: &[String]) -> String {
    let mut chosen = names.to_vec();
    random.shuffle(&mut chosen);
    chosen.truncate(LITERALS);
    let literals: Vec<String> = chosen.iter().map(|name| literal(random, name, 40)).collect();
    let (negated, plain): (Vec<String>, Vec<String>) = literals.into_iter().partition(|l| l.starts_with('('));
    let mut line = format!("(if {}", random.pick(names));
    for literal in plain.iter().map(|name| format!(" {name}")).chain(negated) {
        if line.len() + literal.len() < LINE_BYTES {
            line.push_str(&literal);
        }
    }
    line + ")"
}
