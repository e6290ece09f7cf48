//! Files with bodies at the limit of their literals, from both sides, with and without repeats, and in lines that pass
//! another limit as well.
//!
//! From: document 02, [9].

use crate::edges::{among, sample, Edge};
use crate::families::literal;
use crate::file::{ATOMS, CLAUSES, CONSTRAINTS, LINE_BYTES, LITERALS, NAME_BYTES};
use crate::layout::file;
use crate::names::drawn_name;
use crate::random::Random;
use crate::sample::Sample;

/// The files at the limit: in each a line has 10 or 11 literals, or 12 or 13; and lines that have no such limit.
pub const BODY_EDGES: [Edge; 8] = [different, repeated, long_name, new_name, full, no_form, long_line, no_body];

/// What stands before the literals of a body.
const FRONTS: [&str; 4] = ["if low", "if p0", "never", "avoid"];

/// 10 or 11, or with `past` = 1 12 or 13.
fn count(random: &mut Random, past: usize) -> usize {
    let least = LITERALS - 1 + 2 * past;
    *random.pick(&[least, LITERALS + past, LITERALS + past, least + past])
}

/// As many names as a body past the limit has, in a drawn order.
fn names(random: &mut Random) -> Vec<String> {
    let mut names: Vec<String> = (0..LITERALS + 2).map(|i| format!("p{i}")).collect();
    random.shuffle(&mut names);
    names
}

/// A line for each of `names`: a fact, an assumption, or a rule that makes it depend on a cause.
fn defined(random: &mut Random, names: &[String]) -> Vec<String> {
    let line = |name: &String| match random.below(4) {
        0 => format!("(true {name})"),
        1 => format!("(false {name})"),
        2 => format!("(if {name} shut)"),
        _ => format!("(if {name} (not stopped))"),
    };
    names.iter().map(line).collect()
}

/// Literals of the first `count` of `names`, none of them twice.
fn literals(random: &mut Random, names: &[String], count: usize) -> Vec<String> {
    names[..count].iter().map(|name| literal(random, name, 30)).collect()
}

/// A line with the literals `body`, of a drawn form.
fn line(random: &mut Random, body: &[String]) -> String {
    format!("({} {})", random.pick(&FRONTS), body.join(" "))
}

/// The file with `line` behind lines for `names`; it is to be refused with `number`, or read if that is 0.
fn with(random: &mut Random, names: &[String], line: String, number: u32) -> Sample {
    let mut lines = defined(random, names);
    lines.push(line);
    among(random, lines, usize::from(number != 0), number)
}

/// Literals of different names.
fn different(random: &mut Random, past: usize) -> Sample {
    let (names, count) = (names(random), count(random, past));
    let body = literals(random, &names, count);
    let line = line(random, &body);
    with(random, &names, line, 20 * past as u32)
}

/// The negation of the literal `literal`.
fn negated(literal: &str) -> String {
    literal.strip_prefix("(not ").map_or(format!("(not {literal})"), |name| name.replace(')', ""))
}

/// Literals with one of them twice, with one and its negation, with every second one the negation of the one before it,
/// with two or three different ones, or with one alone.
fn repeated(random: &mut Random, past: usize) -> Sample {
    let (names, count) = (names(random), count(random, past));
    let mut body = literals(random, &names, count);
    let last = count - 1;
    match random.below(5) {
        0 => body[last] = body[random.below(last)].clone(),
        1 => body[last] = negated(&body[random.below(last)]),
        2 => (1..count).step_by(2).for_each(|at| body[at] = negated(&body[at - 1])),
        3 => (3..count).for_each(|at| body[at] = body[random.below(3)].clone()),
        _ => body = vec![body[0].clone(); count],
    }
    random.shuffle(&mut body);
    let line = line(random, &body);
    with(random, &names, line, 20 * past as u32)
}

/// A name of 16 bytes or of 17 as a head or in a body.
fn long_name(random: &mut Random, past: usize) -> Sample {
    let (names, count, longer) = (names(random), count(random, past), random.below(2));
    let long = drawn_name(random, NAME_BYTES + longer);
    let mut body = literals(random, &names, count);
    let line = if random.chance(30) {
        format!("(if {long} {})", body.join(" "))
    } else {
        body[random.below(count)] = literal(random, &long, 30);
        line(random, &body)
    };
    with(random, &names, line, if longer == 1 { 6 } else { 20 * past as u32 })
}

/// A line behind 64 names that brings a 65th as a head or in a body, or none.
fn new_name(random: &mut Random, past: usize) -> Sample {
    let (names, count, brings) = (names(random), count(random, past), random.chance(70));
    let mut body = literals(random, &names, count);
    let line = match random.below(3) {
        0 if brings => format!("(if new {})", body.join(" ")),
        _ => {
            if brings {
                body[*random.pick(&[0, count / 2, count - 1])] = literal(random, "new", 30);
            }
            line(random, &body)
        }
    };
    let mut lines = vec![String::from("(avoid low shut stopped)")];
    lines.extend(defined(random, &names));
    lines.extend((3 + names.len()..ATOMS).map(|i| format!("(false x{i})")));
    lines.push(line);
    let number = if past == 1 { 20 } else { 8 * u32::from(brings) };
    among(random, lines, usize::from(number != 0), number)
}

/// A line behind 255 or 256 clauses, or behind 31 or 32 constraints.
fn full(random: &mut Random, past: usize) -> Sample {
    let (names, count, over) = (names(random), count(random, past), random.below(2));
    let (front, most) = *random.pick(&[("if p0", CLAUSES), ("never", CONSTRAINTS), ("avoid", CONSTRAINTS)]);
    let mut lines = vec![String::from("(query p1)")];
    lines.extend(defined(random, &names));
    let before = if most == CLAUSES { most - names.len() } else { most };
    let more = *random.pick(&["p2 p3", "p2 (not p2)"]);
    lines.extend((1..before + over).map(|_| format!("({front} {more})")));
    lines.push(format!("({front} {})", literals(random, &names, count).join(" ")));
    let number = if past == 1 { 20 } else { 9 * over as u32 };
    sample(file(random, &lines), usize::from(number != 0), number)
}

/// A line that has over 200 bytes or a byte that no line may have, or is no form.
fn no_form(random: &mut Random, past: usize) -> Sample {
    let (names, count) = (names(random), count(random, past));
    let body = literals(random, &names, count);
    let line = line(random, &body);
    let unclosed = &line[..line.len() - 1];
    let (number, line) = match random.below(9) {
        0 | 8 => (3, format!("{unclosed} {})", "p".repeat(LINE_BYTES))),
        1 => (4, format!("{line}\t")),
        2 => (4, line.replace(" p", " P")),
        3 => (5, String::from(unclosed)),
        4 => (5, format!("{unclosed} (not))")),
        5 => (5, format!("{unclosed} (p1) 7)")),
        6 => (5, format!("{line} (true p1)")),
        _ => (5, format!("{line})")),
    };
    with(random, &names, line, number)
}

/// A line of 200 bytes: 11 literals of long names, or with `past` = 1 as many of a short one as there is room for.
fn long_line(random: &mut Random, past: usize) -> Sample {
    let front = *random.pick(&["if low", "never", "avoid"]);
    let mut names: Vec<String> = (0..LITERALS).map(|i| format!("a-name-of-16-b{i:02}")).collect();
    if past == 1 {
        names = vec![String::from("a")];
    }
    let again = *random.pick(&["a", "(not a)"]);
    let most = (LINE_BYTES - front.len() - 2) / (again.len() + 1);
    let body = if past == 1 { vec![String::from(again); most] } else { names.clone() };
    let line = format!("{:<LINE_BYTES$}", format!("({front} {})", body.join(" ")));
    with(random, &names, line, 20 * past as u32)
}

/// 10 to 13 readings, or with `past` = 1 a query of 10 to 13 names, neither of which has such a limit.
fn no_body(random: &mut Random, past: usize) -> Sample {
    let (names, side) = (names(random), random.below(2));
    let count = count(random, side);
    let all = literals(random, &names, count);
    let mut lines: Vec<String> = ["(if low shut)", "(seen low)", "(query stopped)"].map(String::from).to_vec();
    lines.extend(defined(random, &names));
    if past == 0 {
        lines.extend(all.iter().map(|l| format!("(seen {l})")));
    } else {
        let word = *random.pick(&["and", "or", "then", "same"]);
        let query = all.into_iter().reduce(|f, g| format!("({word} {f} {g})")).expect("a literal");
        lines.push(format!("(query {query})"));
    }
    random.shuffle(&mut lines);
    sample(file(random, &lines), 0, 0)
}
