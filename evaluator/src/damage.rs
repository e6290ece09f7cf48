//! Damage done to a case file: to its bytes, to its lines, and to what documents 01 and 02 limit.

use crate::families::constraint;
use crate::file::{ATOMS, CAUSES, CENTS, CLAUSES, CONSTRAINTS, DEPTH, FILE_BYTES, LINE_BYTES, PER_CENT, QUERIES};
use crate::form::DIGITS;
use crate::layout::joined;
use crate::names::drawn_name;
use crate::prices::{cost_line, most_cents};
use crate::random::Random;

/// Bytes that have no place in a form, and some that have.
const ODD_BYTES: [u8; 18] = *b"\0\t\r\x0b\x7f\x80\xff;()_.,AZ-9\n";

/// Tokens of which odd lines are made.
const TOKENS: [&str; 24] = [
    "(", "(", "(", ")", ")", ")", "if", "query", "seen", "never", "avoid", "cost", "atom", "not", "and", "true", "a",
    "n0", "low", "9a", "-", "7", "100", "02000000",
];

/// Atom lines that are none, and lines that are.
const ODD_ATOM_LINES: [&str; 9] = [
    "(atom)",
    "(atom n0 n1)",
    "(atom (not n0))",
    "(atom (n0))",
    "(atom 7)",
    "(atom -n0)",
    "(atoms n0)",
    "( atom atom )",
    "(atom(n0)",
];

/// What stands for a word of a cost line.
const ODD_WORDS: [&str; 9] = ["(not n0)", "n1", "7a", "-7", "0000007", "00000007", "(n0)", "", "1 1"];

/// The lines of `bytes`.
fn lines_of(bytes: &[u8]) -> Vec<Vec<u8>> {
    bytes.split(|b| *b == b'\n').map(|l| l.to_vec()).collect()
}

/// `bytes` with one thing damaged.
pub fn damaged(random: &mut Random, bytes: Vec<u8>) -> Vec<u8> {
    match random.below(3) {
        0 => damaged_bytes(random, bytes),
        1 => {
            let mut lines = lines_of(&bytes);
            damage_lines(random, &mut lines);
            joined(&lines, false)
        }
        _ => past_a_limit(random, bytes),
    }
}

/// `bytes` with a run of a few bytes flipped, deleted, inserted or replaced, or with the end cut off.
fn damaged_bytes(random: &mut Random, mut bytes: Vec<u8>) -> Vec<u8> {
    let at = random.below(bytes.len() + 1);
    let end = bytes.len().min(at + random.between(1, 3));
    match random.below(8) {
        0 => bytes[at..end].iter_mut().for_each(|b| *b ^= 1 << random.below(8)),
        1 | 2 => drop(bytes.drain(at..end)),
        3 => bytes.insert(at, *random.pick(&ODD_BYTES)),
        4 => bytes.insert(at, random.below(256) as u8),
        5 => bytes[at..end].fill(*random.pick(&ODD_BYTES)),
        6 => bytes.truncate(at),
        _ => {
            let brackets: Vec<usize> = (0..bytes.len()).filter(|i| b"() ".contains(&bytes[*i])).collect();
            if !brackets.is_empty() {
                bytes.remove(*random.pick(&brackets));
            }
        }
    }
    bytes
}

/// Doubles, deletes, swaps, joins, cuts, replaces or lengthens lines; of those lengthened to about 200 bytes some get
/// `;` as their first byte, some as their second.
fn damage_lines(random: &mut Random, lines: &mut Vec<Vec<u8>>) {
    let at = random.below(lines.len());
    match random.below(12) {
        0 => lines.insert(at, lines[at].clone()),
        1 => drop(lines.remove(at)),
        2 => {
            let other = random.below(lines.len());
            lines.swap(at, other);
        }
        3 if at > 0 => {
            let tail = lines.remove(at);
            lines[at - 1].extend(tail);
        }
        4 => {
            let cut = random.below(lines[at].len() + 1);
            let tail = lines[at].split_off(cut);
            lines.insert(at + 1, tail);
        }
        5 => {
            let count = random.between(1, 7);
            let odd: Vec<&str> = (0..count).map(|_| *random.pick(&TOKENS)).collect();
            lines[at] = odd.join(" ").into_bytes();
        }
        6 => lengthen_word(random, &mut lines[at], |b| b.is_ascii_lowercase(), (b"ab0-", 17)),
        8 => lengthen_word(random, &mut lines[at], |b| b.is_ascii_digit(), (b"0019", DIGITS)),
        9 => lines[at] = odd_cost_line(random),
        10 => lines[at] = random.pick(&ODD_ATOM_LINES).as_bytes().to_vec(),
        7 => {
            let length = random.between(LINE_BYTES - 2, LINE_BYTES + 3).max(lines[at].len());
            lines[at].resize(length, *random.pick(b"  ;a)"));
            if random.chance(30) {
                lines[at][random.below(2)] = b';';
            }
        }
        _ => drop(lines.drain(at..lines.len().min(at + 4))),
    }
}

/// Lengthens a drawn word of `line` behind a byte that `inside` takes by one of `bytes`, at most `most` times, so
/// that the word may pass the length of a name or of a number.
fn lengthen_word(random: &mut Random, line: &mut Vec<u8>, inside: fn(u8) -> bool, (bytes, most): (&[u8; 4], usize)) {
    let inside: Vec<usize> = (0..line.len()).filter(|i| inside(line[*i])).collect();
    if !inside.is_empty() {
        let at = *random.pick(&inside);
        let more = vec![*random.pick(bytes); random.between(1, most)];
        line.splice(at + 1..at + 1, more);
    }
}

/// A cost line with one of its words doubled, left out or replaced, or with two exchanged.
fn odd_cost_line(random: &mut Random) -> Vec<u8> {
    let mut words: Vec<String> = ["cost", "n0", "150", "1"].map(String::from).to_vec();
    let (at, other) = (random.below(words.len()), random.below(words.len()));
    match random.below(4) {
        0 => words.insert(at, words[other].clone()),
        1 => drop(words.remove(at)),
        2 => words.swap(at, other),
        _ => words[at] = random.pick(&ODD_WORDS).to_string(),
    }
    format!("({})", words.join(" ")).into_bytes()
}

/// `bytes` with lines added, or its queries left out, so that a limit is met or passed.
fn past_a_limit(random: &mut Random, mut bytes: Vec<u8>) -> Vec<u8> {
    let around = random.below(3);
    let line = |i: usize| match i % 3 {
        0 => String::from("(true n0)\n"),
        1 => String::from("(if n1 n0)\n"),
        _ => String::from("(false n1)\n"),
    };
    let more: String = match random.below(12) {
        10 => (0..ATOMS - 6 + 6 * around).map(|i| format!("(atom x{i})\n")).collect(),
        0 => (0..ATOMS / 2 + around).map(|i| format!("(true x{i})\n(false y{i})\n")).collect(),
        1 => (0..CLAUSES - 20 + 10 * around).map(line).collect(),
        2 => (0..CONSTRAINTS - 2 + around).map(|_| constraint(random, "n0 (not n0)") + "\n").collect(),
        3 => (0..CAUSES - 4 + 3 * around).map(|i| format!("(seen (not y{i}))\n")).collect(),
        4 => "(query n0)\n".repeat(QUERIES - 2 + around),
        5 => format!("(query {}n0{})\n", "(not ".repeat(DEPTH - 2 + around), ")".repeat(DEPTH - 2 + around)),
        6 => {
            let body = format!("n0 {}", drawn_name(random, 15 + around));
            constraint(random, &body) + "\n"
        }
        7 => return without_query(&bytes),
        8 | 9 => costs_at_limits(random, around),
        _ => {
            let free = (FILE_BYTES - 300 + 200 * around).saturating_sub(bytes.len());
            format!("{}\n", ";".repeat(99)).repeat(free / 100)
        }
    };
    let lines = lines_of(&bytes);
    let before: usize = lines[..random.below(lines.len())].iter().map(|l| l.len() + 1).sum();
    bytes.splice(before..before, more.into_bytes());
    bytes
}

/// Cost lines at a limit, met or passed by `around`, 0 to 2: of the cents, the per cent, the digits, or the lines of a
/// name, the last of which may pass another limit as well.
fn costs_at_limits(random: &mut Random, around: usize) -> String {
    let width = DIGITS - 1 + around;
    match random.below(5) {
        0 => {
            let per_cent = random.between(0, PER_CENT as usize);
            format!("(cost n0 {} {per_cent})\n", most_cents(per_cent) - 1 + around)
        }
        1 => format!("(cost n0 {} {})\n", random.below(CENTS as usize / 2), PER_CENT as usize - 1 + around),
        2 => {
            let (cents, per_cent) = (random.below(CENTS as usize / 2), random.below(PER_CENT as usize));
            format!("(cost n0 {cents:0width$} {per_cent:0width$})\n")
        }
        3 => format!("(cost n0 0 0)\n(cost n0 5 {})\n", PER_CENT as usize - 1 + around),
        _ => (0..around).map(|_| cost_line(random, "n0") + "\n").collect(),
    }
}

/// `bytes` without the lines that hold "query".
fn without_query(bytes: &[u8]) -> Vec<u8> {
    let kept: Vec<Vec<u8>> = lines_of(bytes).into_iter().filter(|l| !l.windows(5).any(|w| w == b"query")).collect();
    joined(&kept, false)
}
