//! Files with edition lines at their limits: the product of the choices and the number of edition lines from both
//! sides, the spelling, and edition lines beside other lines that are refused.
//!
//! From: document 02, [10].

use crate::cause::SETTINGS;
use crate::edges::{among, sample, Edge};
use crate::families::{atom_lines, literal, queries};
use crate::file::{CAUSES, CLAUSES, LINE_BYTES, LITERALS, QUERIES};
use crate::layout::{file, joined};
use crate::overrides::{edition_line, placed};
use crate::random::Random;
use crate::sample::Sample;

/// The files at each limit.
pub const EDITION_EDGES: [Edge; 6] = [product, line_count, spelling, unread, two_lines, nothing_else];

/// Edition lines that are forms, and some that are none.
const LAWFUL: [&str; 6] =
    ["(edition 1)", "(edition 2)", "( edition 2 )", "(edition  2)", " (edition 1) ", "  (  edition  1  )  "];
const UNLAWFUL: [&str; 22] = [
    "(edition)",
    "(edition 0)",
    "(edition 3)",
    "(edition 9)",
    "(edition 01)",
    "(edition 02)",
    "(edition 12)",
    "(edition 21)",
    "(edition 22)",
    "(edition 1 2)",
    "(edition 2 2)",
    "(edition2)",
    "(edition -1)",
    "(edition 2-)",
    "(edition 2a)",
    "(edition two)",
    "(edition shut)",
    "(edition (2))",
    "(edition (not 2))",
    "((edition 2))",
    "(editions 2)",
    "edition 2",
];

/// The most causes of two choices that fit beside `threes` of three.
fn most_twos(threes: usize) -> usize {
    let settings = |twos: usize| 3u128.pow(threes as u32) * 2u128.pow(twos as u32);
    (0..).take_while(|twos| settings(*twos) <= SETTINGS).last().unwrap_or(0)
}

/// As many causes of two choices beside 0 to 10 of three as there is room for, or one cause more of either; in half of
/// the draws that are read they are counted in edition 1, so that there may be more assumptions.
fn product(random: &mut Random, past: usize) -> Sample {
    let is_second = past == 1 || random.chance(50);
    let drawn = random.between(0, if is_second { CAUSES } else { 4 });
    let mut threes = *random.pick(&[0, drawn, drawn]);
    let more = past + if is_second { 0 } else { random.between(0, 20) };
    let mut twos = most_twos(threes) + more;
    if past == 1 && threes > 0 && random.chance(30) {
        (threes, twos) = (threes + 1, twos - 1);
    }
    let three: Vec<String> = (0..threes).map(|i| format!("c{i}")).collect();
    let two: Vec<String> = (0..twos).map(|i| format!("t{i}")).collect();
    let mut causes = [three, two.clone()].concat();
    random.shuffle(&mut causes);
    let body = &causes[..random.between(1, LITERALS.min(causes.len()))];
    let mut lines: Vec<String> = two.iter().map(|name| format!("(false {name})")).collect();
    lines.push(format!("(if low {})", body.iter().map(|n| literal(random, n, 30)).collect::<Vec<_>>().join(" ")));
    lines.extend(atom_lines(&causes));
    lines.push(String::from("(seen low)"));
    lines.extend(queries(random, &causes, 2));
    random.shuffle(&mut lines);
    if is_second {
        lines = placed(random, lines, String::from("(edition 2)"));
    } else if random.chance(50) {
        lines = placed(random, lines, String::from("(edition 1)"));
    }
    sample(file(random, &lines), past, 12)
}

/// One edition line, or two of drawn editions.
fn line_count(random: &mut Random, past: usize) -> Sample {
    let mut lines = vec![String::from("(false shut)"), edition_line(random)];
    if past == 1 {
        let between = random.below(2);
        lines.extend(vec![String::from("(false shut)"); between]);
        lines.push(format!("(edition {})", random.pick(&[1, 2])));
    }
    among(random, lines, past, 21)
}

/// An edition line that is a form, or one that is none, now and then behind one that is.
fn spelling(random: &mut Random, past: usize) -> Sample {
    let mut lines = vec![String::from("(false stopped)")];
    if past == 0 {
        lines.push(random.pick(&LAWFUL).to_string());
    } else {
        if random.chance(40) {
            lines.push(edition_line(random));
        }
        lines.push(random.pick(&UNLAWFUL).to_string());
    }
    among(random, lines, past, 5)
}

/// An edition line of 200 bytes, or a second one that is over 200 bytes long or has a byte that no line may have.
fn unread(random: &mut Random, past: usize) -> Sample {
    let line = edition_line(random);
    let mut lines: Vec<Vec<u8>> =
        ["(if low shut)", "(false shut)", "(seen low)", "(query shut)"].map(|line| line.as_bytes().to_vec()).to_vec();
    let at = random.between(0, lines.len());
    if past == 0 {
        lines.insert(at, format!("{line:<LINE_BYTES$}").into_bytes());
        return sample(joined(&lines, true), past, 0);
    }
    lines.insert(at, line.clone().into_bytes());
    let (number, bad) = match random.below(4) {
        0 | 1 => (3, format!("{line:<width$}", width = LINE_BYTES + random.between(1, 3))),
        2 => (4, format!("{line}\t")),
        _ => (4, line.replace('e', "E")),
    };
    lines.insert(random.between(at + 1, lines.len()), bad.into_bytes());
    sample(joined(&lines, random.chance(50)), past, number)
}

/// Two lines of which each would be refused, a second edition line and one past another limit; the first decides. With
/// `past` = 0 the edition line comes behind as many queries, clauses or cost lines as there may be, and is read.
fn two_lines(random: &mut Random, past: usize) -> Sample {
    let (number, full, other) = match random.below(6) {
        0 => (10, vec![String::from("(query b)"); QUERIES - 1], String::from("(query a)")),
        1 => (9, vec![String::from("(if a b)"); CLAUSES], String::from("(false b)")),
        2 => (17, vec![String::from("(cost a 5 0)")], String::from("(cost a 5 0)")),
        3 => (16, vec![], String::from("(cost a 5 101)")),
        4 => (20, vec![], format!("(never{})", " a".repeat(LITERALS + 1))),
        _ => (5, vec![], String::from("(edition 2 a)")),
    };
    let (first, second) = (edition_line(random), edition_line(random));
    let mut lines = [vec![String::from("(query a)")], full].concat();
    if past == 0 {
        lines.push(first);
        return sample(file(random, &lines), past, 0);
    }
    let mut lines = placed(random, lines, first);
    let is_edition_first = random.chance(50);
    lines.extend(if is_edition_first { [second, other] } else { [other, second] });
    sample(file(random, &lines), past, if is_edition_first { 21 } else { number })
}

/// An edition line with one query, or without any line but others that ask nothing.
fn nothing_else(random: &mut Random, past: usize) -> Sample {
    let lines = match (past, random.below(3)) {
        (0, _) => vec![String::from("(query a)")],
        (_, 0) => vec![],
        (_, 1) => vec![String::from("(false a)")],
        _ => vec![String::from("(seen a)"), String::from("(if b a)")],
    };
    let line = edition_line(random);
    let lines = placed(random, lines, line);
    sample(file(random, &lines), past, 11)
}

/// `lines` with an edition line more, of any spelling, at a drawn place.
pub fn with_odd_line(random: &mut Random, lines: Vec<String>) -> Vec<String> {
    let spellings = *random.pick(&[&LAWFUL[..], &LAWFUL[..], &UNLAWFUL[..]]);
    let line = random.pick(spellings).to_string();
    placed(random, lines, line)
}
