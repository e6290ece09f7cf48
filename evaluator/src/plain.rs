//! The plain form of operations, tables and answers, in which the vectors of document 02's requests are given.
//!
//! | name | meaning |
//! |---|---|
//! | `Operation` | an operation with its arguments |
//! | `tables` | the record and the tables that a text lists |
//! | `Answered` | what an operation answers |
//! | `Answered::text` | its text |

use crate::cause::Edition;
use crate::cost::Cheapest;
use crate::file::{Refusal, NAME_BYTES};
use crate::held::{Held, Record, PART_BYTES};
use crate::layers::turned;
use crate::load::Load;
use crate::lookup::{Outcome, Pair};

/// The labels of the lines that list a record and tables.
const LABELS: [&str; 13] = [
    "atoms",
    "clauses",
    "constraints",
    "formulas",
    "nodes",
    "obs_plain",
    "obs_neg",
    "edition",
    "clause",
    "constraint",
    "formula",
    "name",
    "price",
];

/// An operation with its arguments.
pub enum Operation {
    Read,
    Settle { setting: u64 },
    Question { slots: usize, bytes: usize },
    Layers,
    Compare(Pair),
    Writeback { bytes: usize },
    Generate { load: Load, bytes: usize },
}

/// What the question answers over all settings: the rounds and the decided atoms; of the minimal ones the lowest cost
/// and the setting that has it.
pub struct Sums {
    pub rounds: u64,
    pub decided: u64,
    pub cheapest: Cheapest,
}

/// What an operation answers, with what it writes to lent memory; of rings those that are told.
pub enum Answered {
    Unread(Refusal),
    Refused(u32),
    Read(Held),
    Settled { truths: u64, falsehoods: u64, rounds: u64, decided: u64 },
    Asked { verdicts: Vec<u64>, minimal: usize, sums: Sums, list: Vec<u16>, work: Vec<u8> },
    Layered(Vec<u64>),
    Rings(Vec<Vec<usize>>),
    Compared(Outcome),
    Written(String),
}

/// The number that `word` is.
fn decimal<N: std::str::FromStr>(word: &str) -> Result<N, String> {
    word.parse().map_err(|_| format!("{word} is no number"))
}

/// The 64-bit word that `word` is.
fn hexadecimal(word: &str) -> Result<u64, String> {
    u64::from_str_radix(word, 16).map_err(|_| format!("{word} is no word"))
}

/// The byte that `word` is.
fn byte(word: &str) -> Result<u8, String> {
    u8::from_str_radix(word, 16).map_err(|_| format!("{word} is no byte"))
}

/// For each line of `text` with the label `label` what `of` makes of the words behind it.
fn rows<T>(text: &str, label: &str, of: impl Fn(&str) -> Result<T, String>) -> Result<Vec<Vec<T>>, String> {
    let labelled = text.lines().map(|line| line.split(' ')).filter(|words| words.clone().next() == Some(label));
    labelled.map(|words| words.skip(1).map(&of).collect()).collect()
}

/// What `of` makes of the words behind the label `label`, which one line of `text` has.
fn one<T, const N: usize>(text: &str, label: &str, of: impl Fn(&str) -> Result<T, String>) -> Result<[T; N], String> {
    let row = rows(text, label, of)?.into_iter().next().ok_or(format!("{label} is missing"))?;
    row.try_into().map_err(|_| format!("{label} has not {N} words"))
}

/// Puts each of `rows` into its entry of `table`, whose entries have `width` elements.
fn put<T: Copy>(table: &mut [T], width: usize, rows: &[Vec<T>]) -> Result<(), String> {
    if rows.len() > table.len() / width || rows.iter().any(|row| row.len() > width) {
        return Err(String::from("the entries don't fit into their table"));
    }
    for (entry, row) in table.chunks_exact_mut(width).zip(rows) {
        entry[..row.len()].copy_from_slice(row);
    }
    Ok(())
}

/// The record and the tables that `text` lists; entries that it doesn't list are zero, and without its line the edition
/// is 1.
pub fn tables(text: &str) -> Result<Held, String> {
    if let Some(line) = text.lines().find(|line| !LABELS.iter().any(|l| line.split(' ').next() == Some(l))) {
        return Err(format!("{line} has no label"));
    }
    let count = |label| one(text, label, decimal::<u64>).map(|[n]| n);
    let word = |label| one(text, label, hexadecimal).map(|[w]| w);
    let edition = rows(text, "edition", decimal)?.concat().first().copied();
    let mut held = Held::zeros();
    held.record = Record {
        atoms: count("atoms")?,
        clauses: count("clauses")?,
        constraints: count("constraints")?,
        formulas: count("formulas")?,
        nodes: one(text, "nodes", decimal)?,
        plain: word("obs_plain")?,
        negated: word("obs_neg")?,
        edition: edition.unwrap_or(Edition::First.number()),
    };
    let names: Vec<Vec<Vec<u8>>> = rows(text, "name", |name| Ok(name.as_bytes().to_vec()))?;
    put(&mut held.clauses, 3, &rows(text, "clause", hexadecimal)?)?;
    put(&mut held.constraints, 3, &rows(text, "constraint", hexadecimal)?)?;
    put(&mut held.formulas, PART_BYTES, &rows(text, "formula", byte)?)?;
    put(&mut held.prices, 1, &rows(text, "price", decimal)?)?;
    put(&mut held.names, NAME_BYTES, &names.iter().map(|name| name.concat()).collect::<Vec<_>>())?;
    Ok(held)
}

/// `items` written by `show`, `between` between two.
fn joined<T>(items: &[T], between: &str, show: impl Fn(&T) -> String) -> String {
    items.iter().map(show).collect::<Vec<_>>().join(between)
}

/// The line of each of the first `count` entries of `table`, of `width` elements, written by `show` behind `label`.
fn entry_lines<T>(label: &str, table: &[T], width: usize, count: u64, show: impl Fn(&T) -> String) -> String {
    let used = table.chunks_exact(width).take(count as usize);
    used.map(|entry| format!("{label} {}\n", joined(entry, " ", &show))).collect()
}

/// The text of the record and the used entries of `held`.
fn tables_text(held: &Held) -> String {
    let Record { atoms, clauses, constraints, formulas, nodes, plain, negated, edition } = &held.record;
    let mut text = format!("atoms {atoms}\nclauses {clauses}\nconstraints {constraints}\nformulas {formulas}\n");
    text.push_str(&format!("nodes {}\n", joined(nodes, " ", |n| n.to_string())));
    text.push_str(&format!("obs_plain {plain:016x}\nobs_neg {negated:016x}\nedition {edition}\n"));
    text.push_str(&entry_lines("clause", &held.clauses, 3, *clauses, |w| format!("{w:016x}")));
    text.push_str(&entry_lines("constraint", &held.constraints, 3, *constraints, |w| format!("{w:016x}")));
    for (part, count) in held.formulas.chunks_exact(PART_BYTES).zip(nodes).take(*formulas as usize) {
        let used = &part[..PART_BYTES.min(*count as usize)];
        text.push_str(&format!("formula {}\n", joined(used, " ", |n| format!("{n:02x}"))));
    }
    for row in held.names.chunks_exact(NAME_BYTES).take(*atoms as usize) {
        let name: Vec<u8> = row.iter().copied().take_while(|b| *b != 0).collect();
        text.push_str(&format!("name {}\n", String::from_utf8_lossy(&name)));
    }
    text.push_str(&entry_lines("price", &held.prices, 1, *atoms, |price| price.to_string()));
    text
}

/// The 64-bit FNV-1a of `bytes`.
fn fnv(bytes: &[u8]) -> u64 {
    bytes.iter().fold(0xcbf2_9ce4_8422_2325, |hash, b| (hash ^ u64::from(*b)).wrapping_mul(0x0000_0100_0000_01b3))
}

impl Operation {
    /// The operation that `line` gives.
    pub fn of(line: &str) -> Result<Operation, String> {
        match line.trim_end_matches('\n').split(' ').collect::<Vec<_>>().as_slice() {
            ["read"] => Ok(Operation::Read),
            ["settle", setting] => Ok(Operation::Settle { setting: decimal(setting)? }),
            ["question", slots, bytes] => Ok(Operation::Question { slots: decimal(slots)?, bytes: decimal(bytes)? }),
            ["layers"] => Ok(Operation::Layers),
            ["writeback", bytes] => Ok(Operation::Writeback { bytes: decimal(bytes)? }),
            ["generate", seed, atoms, clauses, bytes] => {
                let load = Load { seed: decimal(seed)?, atoms: decimal(atoms)?, clauses: decimal(clauses)? };
                Ok(Operation::Generate { load, bytes: decimal(bytes)? })
            }
            ["compare", word, entry] if !word.is_empty() && (1..=NAME_BYTES).contains(&entry.len()) => {
                Ok(Operation::Compare(Pair { word: String::from(*word), entry: String::from(*entry) }))
            }
            _ => Err(format!("{line:?} is no operation")),
        }
    }
}

impl Answered {
    /// The text of this answer.
    pub fn text(&self) -> String {
        match self {
            Answered::Unread(refusal) => format!("refused {} {}\n", refusal.number, refusal.line),
            Answered::Refused(number) => format!("refused {number}\n"),
            Answered::Read(held) => tables_text(held),
            Answered::Settled { truths, falsehoods, rounds, decided } => {
                format!("{truths:016x} {falsehoods:016x} {rounds} {decided}\n")
            }
            Answered::Asked { verdicts, minimal, sums, list, work } => {
                let verdicts = joined(verdicts, ",", |v| v.to_string());
                let settings: String = list.iter().map(|s| format!("{s}\n")).collect();
                let Sums { rounds, decided, cheapest: Cheapest { cost, setting } } = sums;
                let counts = format!("{minimal} {} {rounds} {decided} {cost} {setting}", list.len());
                format!("{verdicts} {counts}\n{settings}{:016x}\n", fnv(work))
            }
            Answered::Layered(numbers) => format!("layered {}\n", joined(numbers, " ", |n| n.to_string())),
            Answered::Rings(rings) => {
                let ring = |atoms: &Vec<usize>| format!("ring {}\n", joined(&turned(atoms), " ", |a| a.to_string()));
                joined(rings, "", ring)
            }
            Answered::Compared(outcome) => String::from(outcome.line()),
            Answered::Written(text) => text.clone(),
        }
    }
}
