//! Families of reading: stored and generated files, files cut and changed byte by byte, each number of queries
//! and of constraints, long comments, each refusal.

use crate::calls::{read, ReadDue, Sizes};
use crate::corpus::{folders, generated, refused_files, Input, EACH, M4};
use crate::due;
use crate::held::{Held, ATOMS, FORMULAS, NODES, PART_BYTES, QUERIES};
use crate::tests::Tests;
use evaluator::sample::bodies;
use std::path::Path;

/// The seeds of the generated files that are read.
const SEEDS: u64 = 6_000;

/// Reads each of `inputs`, in memory of its sizes, and with entries past each of them.
fn files(tests: &mut Tests, name: &str, inputs: &[Input]) {
    tests.family(name);
    for (at, input) in inputs.iter().enumerate() {
        let due = due::read(&input.bytes);
        tests.call(|| input.name.clone(), read(&input.bytes, Sizes::FULL, true, &due));
        let longer = Sizes {
            clauses: Sizes::FULL.clauses + 1 + at % 4,
            constraints: Sizes::FULL.constraints + 1 + at % 3,
            formula: Sizes::FULL.formula + 1 + at % 5,
            names: Sizes::FULL.names + 1 + at % 17,
            prices: Sizes::FULL.prices + 1 + at % 6,
            answer: Sizes::FULL.answer + 1 + at % 2,
        };
        tests.call(|| format!("{} {longer:?}", input.name), read(&input.bytes, longer, false, &due));
    }
}

/// The stored files by folder, then the generated ones: at limits, damaged, whole.
fn corpus(tests: &mut Tests, folder: &Path) {
    for (name, inputs) in folders(folder) {
        files(tests, &format!("read: stored files, {name}"), &inputs);
    }
    files(tests, "read: generated files at limits", &generated(SEEDS, |s| s % 20 == 0));
    files(tests, "read: generated files, damaged", &generated(SEEDS, |s| s % 2 == 1));
    files(tests, "read: generated files, whole", &generated(SEEDS, |s| s % 2 == 0 && s % 20 != 0));
    files(tests, "read: generated files with long bodies", &generated(bodies().end, |s| bodies().contains(&s)));
}

/// Files cut after each byte, and files with each byte replaced by each other one.
fn bytewise(tests: &mut Tests) {
    tests.family("read: files cut after each byte");
    for file in [M4, EACH] {
        for end in 0..=file.len() {
            let due = due::read(&file[..end]);
            tests.call(|| format!("the first {end} bytes"), read(&file[..end], Sizes::FULL, true, &due));
        }
    }
    for (name, file) in [("M4", M4), ("a file with something in each table", EACH)] {
        tests.family(&format!("read: {name}, each byte replaced by each"));
        for at in 0..file.len() {
            for byte in 0..=u8::MAX {
                let mut other = file.to_vec();
                other[at] = byte;
                let due = due::read(&other);
                tests.call(|| format!("byte {at} is {byte}"), read(&other, Sizes::FULL, false, &due));
            }
        }
    }
}

/// What reading `count` queries is due, of which query q has the name `a` below q words `not`.
fn queries_due(count: usize) -> ReadDue {
    if count > QUERIES {
        return due::refused(10, 17);
    }
    let mut held = Held::empty();
    held.record[0] = 1;
    held.record[FORMULAS] = count as u64;
    held.names[0] = b'a';
    for q in 0..count {
        held.record[NODES + q] = q as u64 + 1;
        held.formula[q * PART_BYTES..][..q].fill(64);
    }
    ReadDue { refusal: 0, answer: [&[0], held.record.as_slice()].concat(), tables: Some(held) }
}

/// Files with 1 to 20 queries, tables worked out by hand: up to 16 are read, a 17th is refused in its line.
fn queries(tests: &mut Tests) {
    tests.family("read: 1 to 20 queries, tables by hand");
    for count in 1..=20 {
        let deep = |q: usize| format!("(query {}a{})\n", "(not ".repeat(q), ")".repeat(q));
        let file: String = (0..count).map(|q| deep(q % QUERIES)).collect();
        let due = queries_due(count);
        tests.require(&format!("{count} queries: the evaluator's tables"), due::read(file.as_bytes()) == due);
        for bytes in [file.as_bytes(), file.trim_end().as_bytes()] {
            tests.call(|| format!("{count} queries"), read(bytes, Sizes::FULL, false, &due));
        }
    }
}

/// What reading is due for a query of `a` and `kinds`, for each a constraint of that kind with the body `a`.
fn constraints_due(kinds: &[u64]) -> ReadDue {
    if kinds.len() > 32 {
        return due::refused(9, 34);
    }
    let mut held = Held::empty();
    (held.record[0], held.record[2], held.record[FORMULAS], held.record[NODES]) = (1, kinds.len() as u64, 1, 1);
    held.names[0] = b'a';
    for (entry, kind) in held.constraints.chunks_exact_mut(3).zip(kinds) {
        entry.copy_from_slice(&[1, 0, *kind]);
    }
    ReadDue { refusal: 0, answer: [&[0], held.record.as_slice()].concat(), tables: Some(held) }
}

/// Files with 1 to 40 constraints of one kind, of both in turn, or of one and then of the other, tables worked out by
/// hand: up to 32 are read, a 33rd of either kind is refused in its line.
fn constraints(tests: &mut Tests) {
    tests.family("read: 1 to 40 constraints of both kinds, tables by hand");
    let orders: [fn(usize) -> u64; 6] =
        [|_| 0, |_| 1, |at| at as u64 % 2, |at| 1 - at as u64 % 2, |at| u64::from(at < 16), |at| u64::from(at > 15)];
    for count in 1..=40 {
        for order in orders {
            let kinds: Vec<u64> = (0..count).map(order).collect();
            let line = |kind: &u64| ["(never a)\n", "(avoid a)\n"][*kind as usize];
            let file = String::from("(query a)\n") + &kinds.iter().map(line).collect::<String>();
            let due = constraints_due(&kinds);
            tests.require(&format!("{kinds:?}: the evaluator's tables"), due::read(file.as_bytes()) == due);
            tests.call(|| format!("{kinds:?}"), read(file.as_bytes(), Sizes::FULL, false, &due));
        }
    }
}

/// What reading is due for `count` atom lines `n0`, `n1` and so on, a fact of each from the last on, and a query of
/// `n0`.
fn atoms_due(count: usize) -> ReadDue {
    if count > ATOMS {
        return due::refused(8, 65);
    }
    let mut held = Held::empty();
    (held.record[0], held.record[1]) = (count as u64, count as u64);
    (held.record[FORMULAS], held.record[NODES]) = (1, 1);
    for (atom, row) in held.names.chunks_exact_mut(16).enumerate().take(count) {
        let name = format!("n{atom}");
        row[..name.len()].copy_from_slice(name.as_bytes());
    }
    for (at, entry) in held.clauses.chunks_exact_mut(3).enumerate().take(count) {
        entry[0] = (count - 1 - at) as u64;
    }
    ReadDue { refusal: 0, answer: [&[0], held.record.as_slice()].concat(), tables: Some(held) }
}

/// Files with 1 to 70 atom lines, tables worked out by hand: atoms are numbered by them, and a 65th is refused.
fn atoms(tests: &mut Tests) {
    tests.family("read: 1 to 70 atom lines, tables by hand");
    for count in 1..=70 {
        let atoms: String = (0..count).map(|atom| format!("(atom n{atom})\n")).collect();
        let facts: String = (0..count).rev().map(|atom| format!("(true n{atom})\n")).collect();
        let due = atoms_due(count);
        for again in ["", "(atom n0)\n", "( atom  n0 )\n(atom n0)\n"] {
            let file = format!("{atoms}{facts}{again}(query n0)\n{again}");
            tests.require(&format!("{count} atoms: the evaluator's tables"), due::read(file.as_bytes()) == due);
            tests.call(|| format!("{count} atoms"), read(file.as_bytes(), Sizes::FULL, false, &due));
        }
    }
}

/// A line that is a comment of `length` bytes, all but LF in turn behind the first.
fn comment(length: usize) -> Vec<u8> {
    let free = (0..=u8::MAX).filter(|b| *b != b'\n').cycle();
    std::iter::once(b';').chain(free).take(length).chain([b'\n']).collect()
}

/// Comments of up to 32,000 bytes in each line of a file: it says what it says without them, and the number of a line
/// that is refused counts them.
fn comments(tests: &mut Tests) {
    tests.family("read: comments of 1 to 32,000 bytes in each line");
    let lines: Vec<&[u8]> = EACH.split_inclusive(|b| *b == b'\n').collect();
    let due = due::read(EACH);
    let refused = due::refused(5, lines.len() as u64 + 2);
    for length in [1, 199, 200, 201, 202, 256, 5_000, 32_000] {
        for at in 0..=lines.len() {
            let what = || format!("{length} bytes in line {}", at + 1);
            let file = [&lines[..at].concat(), &comment(length), &lines[at..].concat()].map(Vec::as_slice).concat();
            tests.require(&format!("{}: the evaluator's tables", what()), due::read(&file) == due);
            tests.call(what, read(&file, Sizes::FULL, false, &due));
            tests.call(what, read(&[file.as_slice(), b"(\n"].concat(), Sizes::FULL, false, &refused));
        }
    }
}

/// For each refusal from 2 on the files that get it, with the line worked out by hand.
fn refusals(tests: &mut Tests) {
    for number in (2..=12).chain([16, 17, 20, 21]) {
        tests.family(&format!("read: refusal {number}"));
        for (_, line, file) in refused_files().into_iter().filter(|(n, _, _)| *n == number) {
            let due = due::refused(number, line);
            let own = due::read(&file);
            tests.require("the evaluator's refusal", own.refusal == number && own.answer == due.answer);
            for more in 0..20 {
                let sizes = Sizes {
                    clauses: Sizes::FULL.clauses + more,
                    constraints: Sizes::FULL.constraints + more,
                    formula: Sizes::FULL.formula + more,
                    names: Sizes::FULL.names + more,
                    prices: Sizes::FULL.prices + more,
                    answer: Sizes::FULL.answer + more,
                };
                tests.call(|| format!("line {line}, {sizes:?}"), read(&file, sizes, false, &due));
            }
        }
    }
}

/// All families of reading files.
pub fn run(tests: &mut Tests, folder: &Path) {
    corpus(tests, folder);
    bytewise(tests);
    queries(tests);
    constraints(tests);
    atoms(tests);
    comments(tests);
    refusals(tests);
}
