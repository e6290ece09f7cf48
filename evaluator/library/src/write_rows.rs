//! Families of writing with rows that are names or none, prices at their limit, bodies and long lines, all worked out
//! by hand.

use crate::held::{masks, nodes, Held, NODES};
use crate::tests::Tests;
use crate::write_call::{write, Page, WriteDue, PAGE};
use evaluator::case::{Body, Case, Clause};
use evaluator::cause::Edition;
use evaluator::constraint::{Constraint, Kind};
use evaluator::file;
use evaluator::formula::{Connective, Formula, Literal};
use evaluator::random::Random;

/// The bytes of a name's row.
const ROW: usize = 16;

/// The tables of the case of `file`.
fn held(file: &str) -> Held {
    Held::of(&file::read(file.as_bytes()).unwrap_or_else(|r| panic!("refused with {}", r.number)))
}

/// The text of a case of three atoms with `names`, and with `costs` behind it.
fn text([h, a, b]: [&str; 3], costs: &str) -> String {
    format!("(atom {h})\n(atom {a})\n(atom {b})\n(if {h} {a}(not {b}))\n(seen {h})\n(query {a})\n{costs}")
}

/// That case with the names `h`, `a` and `b`, but for that of the atom `at`, which has `row` and zeros behind it.
fn named(at: usize, row: &[u8]) -> Held {
    let mut held = held(&text(["h", "a", "b"], ""));
    held.names[ROW * at..ROW * (at + 1)].fill(0);
    held.names[ROW * at..][..row.len()].copy_from_slice(row);
    held
}

/// Rows that are names, rows that are none, and names that are there twice.
fn rows(tests: &mut Tests) {
    tests.family("write: rows that are names");
    for at in 0..3 {
        for name in ["x", "z9", "x-", "x--9", "not", "if", "atom", "a123456789012345", "hh", "aa", "bb"] {
            let mut names = ["h", "a", "b"];
            names[at] = name;
            let due = WriteDue::text(&text(names, ""));
            tests.call(|| format!("{at}, {name}"), write(&named(at, name.as_bytes()), PAGE, &due));
        }
    }
    tests.family("write: rows that are no names");
    let bad = ["", "ab\0c", "\0x", "x\0\0y", "X", "xY", "9a", "-a", "b.c", "b.X", "x y", "x ", "(x", "x\n", "x_y"];
    for at in 0..3 {
        for row in bad.into_iter().chain(["x\0\0\0\0\0\0\0\0\0\0\0\0\0\0y", "a12345678901234."]) {
            tests.call(|| format!("{at}, {row:?}"), write(&named(at, row.as_bytes()), PAGE, &WriteDue::refused(13)));
        }
    }
    tests.family("write: a name that is there twice");
    for (at, other) in [(0, "a"), (0, "b"), (1, "h"), (1, "b"), (2, "h"), (2, "a")] {
        tests.call(|| format!("{at}, {other}"), write(&named(at, other.as_bytes()), PAGE, &WriteDue::refused(13)));
    }
}

/// Each byte at each place of a row behind letters `x`, with zeros behind it and with letters `y`.
fn row_bytes(tests: &mut Tests) {
    tests.family("write: each byte at each place of a row");
    let is_inside = |byte: u8| byte.is_ascii_lowercase() || byte.is_ascii_digit() || byte == b'-';
    for place in 0..ROW {
        for (byte, filled) in (0..=255).flat_map(|byte| [(byte, false), (byte, true)]) {
            let mut row = [vec![b'x'; place], vec![byte]].concat();
            row.resize(if filled { ROW } else { row.len() }, b'y');
            let is_end = byte == 0 && (!filled || place == ROW - 1);
            let is_name = if place == 0 { byte.is_ascii_lowercase() } else { is_inside(byte) || is_end };
            let is_taken = row == b"h" || row == b"a";
            let name = String::from_utf8_lossy(&row).trim_end_matches('\0').to_string();
            let due = match is_name && !is_taken {
                true => WriteDue::text(&text(["h", "a", &name], "")),
                false => WriteDue::refused(13),
            };
            tests.call(|| format!("place {place}, byte {byte}, {filled}"), write(&named(2, &row), PAGE, &due));
        }
    }
}

/// Prices at their limit, of the atoms and past them, and rows past the atoms.
fn prices(tests: &mut Tests) {
    let names = ["h", "a", "b"];
    tests.family("write: prices at their limit");
    for (at, name) in names.into_iter().enumerate() {
        for price in [0, 1, 9, 10, 99, 100, 999_999, 1_000_000, 1_000_001, 1_999_999, 2_000_000] {
            let mut held = held(&text(names, ""));
            held.prices[at] = price;
            let cost = if price == 0 { String::new() } else { format!("(cost {name} {price} 0)\n") };
            tests.call(|| format!("{at} at {price}"), write(&held, PAGE, &WriteDue::text(&text(names, &cost))));
        }
        for price in [2_000_001, 2_000_002, 9_999_999, 10_000_000, 1 << 31, u32::MAX] {
            let mut held = held(&text(names, ""));
            held.prices[at] = price;
            tests.call(|| format!("{at} at {price}"), write(&held, PAGE, &WriteDue::refused(13)));
        }
    }
    tests.family("write: rows and prices past the atoms");
    for seed in 0..200 {
        let mut random = Random::new(seed);
        let mut held = held(&text(names, ""));
        match seed % 4 {
            0 => held.names[3 * ROW..].fill(b'X'),
            1 => held.names.copy_within(..ROW, 3 * ROW),
            2 => held.names[3 * ROW..].fill_with(|| random.below(256) as u8),
            _ => held.names[3 * ROW + 1] = b'x',
        }
        held.prices[3..].fill(*random.pick(&[1, 2_000_000, 2_000_001, u32::MAX]));
        tests.call(|| format!("seed {seed}"), write(&held, PAGE, &WriteDue::text(&text(names, ""))));
    }
}

/// The atoms `one` and `other`, and their negations.
fn both(one: usize, other: usize) -> Vec<Literal<usize>> {
    [(one, true), (other, false), (one, false), (other, true)].map(|(atom, negated)| Literal { atom, negated }).to_vec()
}

/// Bodies and observations with atoms plain and negated at once, at both ends of the words.
fn bodies(tests: &mut Tests) {
    tests.family("write: atoms plain and negated");
    let names: Vec<String> = (0..64).map(|i| format!("n{i}")).collect();
    let lines = |front: &str| names.iter().map(|name| format!("({front} {name})\n")).collect::<String>();
    for (one, other) in [(0, 63), (63, 0), (31, 32), (32, 31), (5, 7), (7, 5)] {
        let rule = Clause { head: one, body: Body::All(both(one, other)) };
        let assumptions = (0..64).map(|head| Clause { head, body: Body::False });
        let case = Case {
            names: names.clone(),
            clauses: assumptions.chain([rule]).collect(),
            constraints: vec![Constraint { kind: Kind::Avoid, body: both(one, one) }],
            observations: both(one, other),
            queries: vec![Formula::two(Connective::Same, Formula::Atom(one), Formula::Atom(other))],
            prices: vec![0; 64],
            edition: Edition::First,
        };
        let (low, high) = (one.min(other), one.max(other));
        let rest = format!(
            "(if n{one} n{low} n{high}(not n{low})(not n{high}))\n(avoid n{one}(not n{one}))\n(seen n{low})\n\
             (seen n{high})\n(seen(not n{low}))\n(seen(not n{high}))\n(query(same n{one} n{other}))\n"
        );
        let text = lines("atom") + &lines("false") + &rest;
        let held = Held::of(&case);
        tests.require("words of both", held.clauses[3 * 64 + 1..3 * 65] == masks(&both(one, other)));
        tests.call(|| format!("{one} and {other}"), write(&held, PAGE, &WriteDue::text(&text)));
    }
}

/// Writes `held`, whose text is `text` and whose longest line has `bytes` bytes, to outputs of several lengths.
fn long(tests: &mut Tests, held: &Held, text: &str, bytes: usize) {
    for out in [0, text.len() - 1, text.len(), PAGE.out] {
        let due = match (bytes > 200, out < text.len()) {
            (true, _) => WriteDue::refused(18),
            (false, true) => WriteDue::refused(19),
            (false, false) => WriteDue::text(text),
        };
        tests.call(|| format!("a line of {bytes} bytes, {out} lent"), write(held, Page::of(out), &due));
    }
}

/// Constraints and queries of up to 200 bytes and of more.
fn long_lines(tests: &mut Tests) {
    tests.family("write: constraints of 200 and more bytes");
    for length in 1..=ROW {
        let mut names: Vec<String> = (0..11).map(|i| format!("name-of-16-byte{}", char::from(b'a' + i))).collect();
        let last = "x".repeat(length);
        names.push(last.clone());
        let lines = |front: &str| names.iter().map(|name| format!("({front} {name})\n")).collect::<String>();
        let mut held = held(&format!("{}(never {last})\n(query {last})\n", lines("true")));
        held.constraints[0] = (1 << 12) - 1;
        let line = format!("(never {})", names.join(" "));
        let text = format!("{}{}{line}\n(query {last})\n", lines("atom"), lines("true"));
        long(tests, &held, &text, line.len());
    }
    tests.family("write: queries of 200 and more bytes");
    let name = "h".repeat(ROW);
    for depth in 2..=16 {
        let mut held = named(0, name.as_bytes());
        let formula = (1..depth).fold(Formula::Atom(1), |f, _| Formula::two(Connective::Then, Formula::Atom(0), f));
        let nodes = nodes(&formula);
        held.formula[..nodes.len()].copy_from_slice(&nodes);
        held.record[NODES] = nodes.len() as u64;
        let query = format!("(query{} a{})", format!("(then {name}").repeat(depth - 1), ")".repeat(depth - 1));
        let text = text([&name, "a", "b"], "").replace("(query a)", &query);
        long(tests, &held, &text, query.len());
    }
}

/// All families of writing worked out by hand.
pub fn run(tests: &mut Tests) {
    rows(tests);
    row_bytes(tests);
    prices(tests);
    bodies(tests);
    long_lines(tests);
}
