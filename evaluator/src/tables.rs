//! The tables that the manual shows: the settings of a case, the answers under a cap on rounds, the limits.

use crate::answer::{answer, LIST_SLOTS};
use crate::body_edges::BODY_EDGES;
use crate::case::Case;
use crate::cause::{digits, Cause, SETTINGS};
use crate::edges::{Edge, EDGES};
use crate::edition_edges::EDITION_EDGES;
use crate::file::{
    ATOMS, CAUSES, CENTS, CLAUSES, CONSTRAINTS, DEPTH, FILE_BYTES, LINE_BYTES, LITERALS, NAME_BYTES, PER_CENT, QUERIES,
};
use crate::form::DIGITS;
use crate::formula::{Value, FALSE, TRUE};
use crate::question::{ask, ask_capped, Engine, Findings};
use crate::random::Random;

/// The limits in the manual's order: the words, the number, and the files at it.
const LIMITS: [(&str, usize, Edge); 8] = [
    ("names in a file", ATOMS, EDGES[0]),
    ("bytes of a name", NAME_BYTES, EDGES[1]),
    ("clauses, that is `true`, `false` and `if` lines", CLAUSES, EDGES[5]),
    ("constraints, that is `never` and `avoid` lines", CONSTRAINTS, EDGES[6]),
    ("literals of an `if`, `never` or `avoid` line, as written", LITERALS, BODY_EDGES[0]),
    ("bytes of a line that is no comment, without its LF", LINE_BYTES, EDGES[4]),
    ("bytes of a file", FILE_BYTES, EDGES[7]),
    ("depth of a query's formula", DEPTH, EDGES[3]),
];

/// The limits of causes and editions, behind that of queries.
const CAUSE_LIMITS: [(&str, usize, Edge); 3] = [
    ("causes without a clause", CAUSES, EDGES[2]),
    ("settings, that is the product of the causes' choices", SETTINGS as usize, EDITION_EDGES[0]),
    ("`edition` lines", 1, EDITION_EDGES[1]),
];

/// The limits of cost lines in the manual's order: the words, the number, and a line one past it, behind a first one.
const COST_LIMITS: [(&str, usize, &str); 4] = [
    ("cents of a price, with its supplement", CENTS as usize, "(cost b 1980199 1)"),
    ("per cent of a supplement", PER_CENT as usize, "(cost b 0 101)"),
    ("digits of a price or of a supplement", DIGITS, "(cost b 00000001 0)"),
    ("`cost` lines for a name", 1, "(cost a 0 0)"),
];

/// `n` in decimal, with a comma before each three digits of a number over 999.
fn grouped(n: usize) -> String {
    if n < 1_000 {
        n.to_string()
    } else {
        format!("{},{:03}", grouped(n / 1_000), n % 1_000)
    }
}

/// The word for `v`.
fn word(v: Value) -> &'static str {
    match v {
        FALSE => "false",
        TRUE => "true",
        _ => "unknown",
    }
}

/// Whether the setting `t` of `causes` is a proper subset of `s`.
fn is_smaller(t: usize, s: usize, causes: &[Cause]) -> bool {
    t != s && digits(t, causes).iter().zip(digits(s, causes)).all(|(d, e)| *d == 0 || *d == e)
}

/// What the manual says of the setting `s`.
fn remark(found: &Findings, s: usize) -> String {
    let smaller: Vec<String> =
        (0..s).filter(|t| found.explains[*t] && is_smaller(*t, s, &found.causes)).map(|t| t.to_string()).collect();
    match (found.explains[s], smaller.as_slice()) {
        (false, _) => String::from("no"),
        (true, []) => String::from("yes, minimal"),
        (true, [one]) => format!("yes, but {one} is smaller"),
        (true, more) => format!("yes, but {} are smaller", more.join(" and ")),
    }
}

/// A row for each setting of `case`: its number, the values of the atoms `shown`, its rounds, how many atoms are
/// decided, whether it explains.
pub fn settings(case: Case, shown: &[&str]) -> Vec<String> {
    let atoms: Vec<usize> = shown.iter().filter_map(|n| case.names.iter().position(|m| m == n)).collect();
    let found = ask(case.clone());
    let mut engine = Engine::new(case);
    let mut row = |s: usize| {
        let settled = engine.settle_setting(s);
        let values: Vec<&str> = atoms.iter().map(|a| word(settled.model[*a])).collect();
        let (rounds, decided) = (settled.rounds(), settled.decided());
        format!("| {s} | {} | {rounds} | {decided} | {} |", values.join(" | "), remark(&found, s))
    };
    (0..found.explains.len()).map(&mut row).collect()
}

/// For each cap from 1 to the number of names and no cap: the cap, the verdicts joined by `,`, and the settings found
/// minimal, each as the names of its causes joined by `+`.
pub fn caps(case: Case) -> Vec<String> {
    let line = |cap: &str, found: Findings| {
        let explanation = |s: &usize| {
            let chosen = found.causes.iter().zip(digits(*s, &found.causes)).filter(|(_, d)| *d > 0);
            chosen.map(|(c, _)| case.names[c.atom].as_str()).collect::<Vec<_>>().join("+")
        };
        let explanations: Vec<String> = found.minimal.iter().map(explanation).collect();
        let verdicts: Vec<&str> = found.verdicts.iter().map(|v| v.word()).collect();
        format!("{cap} {} {}", verdicts.join(","), explanations.join(" "))
    };
    let capped = (1..=case.names.len() as u64).map(|cap| line(&cap.to_string(), ask_capped(case.clone(), cap)));
    capped.chain([line("none", ask(case.clone()))]).collect()
}

/// The number of the refusal that `file` gets, 0 if it is read.
fn refusal(file: &[u8]) -> u32 {
    answer(file).result.err().map_or(0, |refusal| refusal.number)
}

/// A row for each limit: what, at most how many, and the refusal that a file one past it gets.
pub fn limits() -> Vec<String> {
    let row = |(what, most, edge): &(&str, usize, Edge)| {
        let past = edge(&mut Random::new(0), 1);
        format!("| {what} | {} | {} |", grouped(*most), refusal(&past.bytes))
    };
    let queries = [refusal(&b"(query a)\n".repeat(QUERIES + 1)), refusal(b"")];
    let mut rows: Vec<String> = LIMITS.iter().map(row).collect();
    rows.push(format!("| queries | {QUERIES}, and no fewer than 1 | {}, {} |", queries[0], queries[1]));
    rows.extend(CAUSE_LIMITS.iter().map(row));
    rows.extend(COST_LIMITS.iter().map(|(what, most, line)| {
        let file = format!("(query a)\n(cost a 0 0)\n{line}\n");
        format!("| {what} | {} | {} |", grouped(*most), refusal(file.as_bytes()))
    }));
    let listed = grouped(LIST_SLOTS);
    rows.push(format!(
        "| `cause` lines in a report | {listed} | no refusal: m tells how many explanations there are |"
    ));
    rows
}
