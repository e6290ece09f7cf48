//! Files at the limits of documents 01 and 02, each limit from both sides.
//!
//! From: document 01, The file; What each operation refuses (Reading); Edges; document 02, [1], [2], [5], [7], [8].

use crate::constraint::KINDS;
use crate::families::{atom_lines, constraint, formula, literal, queries};
use crate::file::{
    ATOMS, CAUSES, CENTS, CLAUSES, CONSTRAINTS, DEPTH, FILE_BYTES, LINE_BYTES, NAME_BYTES, PER_CENT, QUERIES,
};
use crate::layout::{file, joined};
use crate::names::{drawn_name, names};
use crate::prices::cost_line;
use crate::random::Random;
use crate::sample::{Due, Sample};

/// The files at one limit: within it, or one past it.
pub type Edge = fn(&mut Random, usize) -> Sample;

/// Every limit but those of cost lines, of bodies and of editions, and the length of comments, which have none of their
/// own.
pub const EDGES: [Edge; 10] = [
    atom_count,
    name_length,
    cause_count,
    formula_depth,
    line_length,
    clause_count,
    constraint_count,
    file_length,
    query_count,
    comment_length,
];

/// The sample of `bytes` that is to be read, or with `past` = 1 to be refused with `number`.
pub fn sample(bytes: Vec<u8>, past: usize, number: u32) -> Sample {
    Sample { bytes, due: if past == 0 { Due::Read } else { Due::Refused(number) } }
}

/// A file in which either of two causes explains, with the lines `more` among the others; with `past` = 1 the last of
/// these is to be refused with `number`, unless another line before them is, and now and then one behind them would be
/// too.
pub fn among(random: &mut Random, more: Vec<String>, past: usize, number: u32) -> Sample {
    let mut lines: Vec<String> = ["(if low shut)", "(if low stopped)", "(seen low)"].map(String::from).to_vec();
    lines.extend(queries(random, &[String::from("shut"), String::from("stopped")], 2));
    random.shuffle(&mut lines);
    let at = random.between(0, lines.len());
    lines.splice(at..at, more);
    let (other, line) = *random.pick(&[(5, "(query shut"), (6, "(true a-name-of-17-byte)")]);
    match random.below(4) {
        0 if past == 1 => lines.push(String::from(line)),
        1 if past == 1 => {
            lines.insert(random.between(0, at), String::from(line));
            return sample(file(random, &lines), past, other);
        }
        _ => (),
    }
    sample(file(random, &lines), past, number)
}

/// Queries of `name`: at most 15, so that a further one is lawful, or with `past` = 1 at most 16.
fn asked_before(random: &mut Random, name: &str, past: usize) -> Vec<String> {
    let count = *random.pick(&[1, 2, QUERIES - 2 + past, QUERIES - 1 + past]);
    vec![format!("(query {name})"); count]
}

/// 64 names, or 65.
fn atom_count(random: &mut Random, past: usize) -> Sample {
    let all = names(random, ATOMS + past);
    let (heads, rest) = all.split_at(ATOMS - 3);
    let mut lines: Vec<String> = Vec::new();
    for (at, head) in heads.iter().enumerate() {
        let before = &heads[at.saturating_sub(1)];
        lines.push(match random.below(3) {
            0 => format!("(true {head})"),
            1 => format!("(false {head})"),
            _ => format!("(if {head} {})", literal(random, before, 30)),
        });
    }
    if past == 1 && random.chance(30) {
        lines.extend(asked_before(random, &heads[0], past));
        lines.push(format!("(query (or (and {} {}) (then {} {})))", rest[0], rest[1], rest[2], rest[3]));
    } else if random.chance(30) {
        lines.push(format!("(query {})", heads[1]));
        lines.extend(rest.iter().map(|name| cost_line(random, name)));
    } else if random.chance(30) {
        lines.push(format!("(query {})", heads[1]));
        lines.extend(atom_lines(rest));
    } else if past == 1 && random.chance(30) {
        lines.push(format!("(query (or (and {} {}) {}))", rest[0], rest[1], rest[2]));
        lines.push(format!("(cost {} {} 0)", rest[3], CENTS + 1));
    } else {
        lines.push(format!("(query {})", heads[1]));
        lines.push(constraint(random, &rest.join(" ")));
    }
    sample(file(random, &lines), past, 8)
}

/// A name of 16 bytes, or of 17, at a drawn place.
fn name_length(random: &mut Random, past: usize) -> Sample {
    let name = drawn_name(random, NAME_BYTES + past);
    let mut lines = vec![String::from("(query (or low shut))")];
    lines.push(match random.below(9) {
        8 => format!("(atom {name})"),
        0 => format!("(true {name})"),
        1 => format!("(if {name} shut)"),
        6 => cost_line(random, &name),
        7 if past == 1 => format!("(cost {name} 0 {})", PER_CENT + 1),
        2 => format!("(if low shut (not {name}))"),
        3 => constraint(random, &format!("shut {name}")),
        4 => format!("(seen (not {name}))"),
        _ => format!("(false {name})"),
    });
    if random.chance(30) {
        lines = vec![format!("(query (then low {name}))")];
    }
    sample(file(random, &lines), past, 6)
}

/// 10 causes, or 11.
fn cause_count(random: &mut Random, past: usize) -> Sample {
    let all: Vec<String> = (0..CAUSES + past).map(|i| format!("c{i}")).collect();
    let cut = random.between(1, all.len() - 1);
    let mut lines = vec![format!("(if low {})", all[..cut].join(" "))];
    if random.chance(30) {
        lines.extend(all[cut..].iter().map(|cause| cost_line(random, cause)));
    } else if random.chance(30) {
        lines.extend(atom_lines(&all[cut..]));
    } else {
        lines.push(constraint(random, &all[cut..].join(" ")));
    }
    lines.push(String::from("(seen low)"));
    lines.extend(queries(random, &all, 3));
    sample(file(random, &lines), past, 12)
}

/// A formula of depth 16, or 17.
fn formula_depth(random: &mut Random, past: usize) -> Sample {
    let mut deep = String::from("a");
    let only_not = random.chance(30);
    for _ in 1..DEPTH + past {
        deep = match random.below(3) {
            0 => format!("(and {deep} b)"),
            1 if !only_not => format!("(then a {deep})"),
            _ => format!("(not {deep})"),
        };
    }
    let mut lines = vec![String::from("(true b)")];
    if random.chance(40) {
        lines.extend(asked_before(random, "b", past));
    }
    lines.push(format!("(query {deep})"));
    sample(file(random, &lines), past, 7)
}

/// A line of 200 bytes, or of 201: a form or spaces, the last line with or without its LF.
fn line_length(random: &mut Random, past: usize) -> Sample {
    let length = LINE_BYTES + past;
    let long = match random.below(3) {
        0 => format!("{:>length$}", "(query a)"),
        1 => format!("{:<length$}", "(query a)"),
        _ => " ".repeat(length),
    };
    let mut lines = vec![long.clone().into_bytes()];
    if !long.contains("query") {
        lines.insert(random.below(2), b"(query a)".to_vec());
    }
    let last_ends = random.chance(50);
    sample(joined(&lines, last_ends), past, 3)
}

/// 256 clauses, or 257.
fn clause_count(random: &mut Random, past: usize) -> Sample {
    let all: Vec<String> = (0..12).map(|i| format!("n{i}")).collect();
    let mut lines = vec![String::from("(query n0)")];
    for at in 0..CLAUSES + past {
        let head = &all[at % 9];
        lines.push(match random.below(6) {
            0 => format!("(true {head})"),
            1 => format!("(false {head})"),
            _ => format!("(if {head} {} {})", random.pick(&all), literal(random, &all[at % 12], 50)),
        });
    }
    sample(file(random, &lines), past, 9)
}

/// 32 constraints, or 33, of both kinds in half of the draws, else of one. In two of three draws all but one of them
/// are met wherever the reading is true, and that one is often the last.
fn constraint_count(random: &mut Random, past: usize) -> Sample {
    let all: Vec<String> = (0..4).map(|i| format!("n{i}")).collect();
    let mut lines: Vec<String> = ["(if n0 n1 n2)", "(if n0 n3)", "(seen n0)"].map(String::from).to_vec();
    lines.push(format!("(query {})", formula(random, &all, 3)));
    let kinds = *random.pick(&[&KINDS[..1], &KINDS[1..], &KINDS[..], &KINDS[..]]);
    let drawn = random.below(CONSTRAINTS);
    let alone = *random.pick(&[None, Some(drawn), Some(CONSTRAINTS - 1)]);
    for at in 0..CONSTRAINTS + past {
        let (first, second) = (random.pick(&all), random.pick(&all[1..]));
        let body = match alone {
            None => format!("{first} {}", literal(random, second, 90)),
            Some(place) if at == place => literal(random, second, 30),
            Some(_) => format!("{first} (not n0)"),
        };
        lines.push(format!("({} {body})", random.pick(kinds).word()));
    }
    sample(file(random, &lines), past, 9)
}

/// A file of 32,768 bytes, or of 32,769, now and then of many more.
fn file_length(random: &mut Random, past: usize) -> Sample {
    let far = if past == 1 && random.chance(20) { 200_000 } else { 0 };
    let mut bytes = b"(if low shut)\n(seen low)\n(query shut)\n".to_vec();
    let length = FILE_BYTES + past + far;
    while bytes.len() < length {
        let (byte, most) = *random.pick(&[(b' ', LINE_BYTES), (b';', LINE_BYTES), (b';', FILE_BYTES)]);
        let line = random.between(1, most).min(length - bytes.len());
        bytes.extend(std::iter::repeat_n(byte, line));
        if bytes.len() < length {
            bytes.push(b'\n');
        }
    }
    sample(bytes, past, 2)
}

/// A comment of 200 bytes, or with `past` = 1 of 201 and more, at a drawn place: it is read over, and in half of the
/// draws a line behind it is refused.
fn comment_length(random: &mut Random, past: usize) -> Sample {
    let length = if past == 0 { LINE_BYTES } else { *random.pick(&[LINE_BYTES + 1, LINE_BYTES + 2, 5_000, 32_000]) };
    let rest = *random.pick(&["x", "(", ")", ";", " ", "(query a) "]);
    let mut comment = format!(";{}", rest.repeat(length));
    comment.truncate(length);
    let mut lines = vec![b"(if a b)".to_vec(), b"(seen a)".to_vec(), b"(query b)".to_vec()];
    let at = random.between(0, lines.len());
    lines.insert(at, comment.into_bytes());
    let mut due = Due::Read;
    if random.chance(50) {
        let wrong = [
            (3, format!("{:<width$}", "(true b)", width = LINE_BYTES + 1)),
            (4, String::from(" ; a comment begins a line")),
            (5, String::from("(query b")),
            (6, format!("(true {})", "b".repeat(NAME_BYTES + 1))),
        ];
        let (number, line) = random.pick(&wrong);
        lines.insert(random.between(at + 1, lines.len()), line.clone().into_bytes());
        due = Due::Refused(*number);
    }
    let last_ends = random.chance(50);
    Sample { bytes: joined(&lines, last_ends), due }
}

/// 16 queries, or 17; with `past` = 1 in half of the draws none.
fn query_count(random: &mut Random, past: usize) -> Sample {
    let all = [String::from("low"), String::from("shut"), String::from("open")];
    let mut lines = vec![String::from("(if low shut (not open))"), String::from("(seen low)")];
    if past == 0 || random.chance(50) {
        lines.extend((0..QUERIES + past).map(|_| format!("(query {})", formula(random, &all, 3))));
        random.shuffle(&mut lines);
        return sample(file(random, &lines), past, 10);
    }
    let bytes = if random.chance(30) { Vec::new() } else { file(random, &lines) };
    sample(bytes, past, 11)
}
