//! The constants of the C header and of the Rust module, and what they are due: by the evaluator, or by document 01
//! where it says so outright.
//!
//! | name | meaning |
//! |---|---|
//! | `due` | each constant's name, without the header's `CAUSES_`, and its value |
//! | `REFUSALS`, `refusal` | the names of the refusals by number, and the name of one number |
//! | `run` | the families of the Rust module's constants |

use crate::corpus::M4;
use crate::due::{refused, unasked, Asking, Settling};
use crate::held::{Held, EDITION, FORMULA_BYTES};
use crate::tests::{differing, Tests};
use crate::write_call::WRITE_WORDS;
use causes::{sizes, stack};
use evaluator::answer::LIST_SLOTS;
use evaluator::cause::SETTINGS;
use evaluator::file::{self, ATOMS, CLAUSES, CONSTRAINTS, FILE_BYTES, LITERALS, NAME_BYTES, QUERIES};
use std::path::Path;

/// The refusals of documents 01 and 02.
pub const REFUSALS: [(&str, u32); 23] = [
    ("SHORT", 1),
    ("LONG_FILE", 2),
    ("LONG_LINE", 3),
    ("BAD_BYTE", 4),
    ("NOT_A_FORM", 5),
    ("LONG_NAME", 6),
    ("DEEP_FORMULA", 7),
    ("MANY_NAMES", 8),
    ("MANY_CLAUSES", 9),
    ("MANY_QUERIES", 10),
    ("NO_QUERY", 11),
    ("MANY_CAUSES", 12),
    ("UNSOUND", 13),
    ("NO_SETTING", 14),
    ("SHORT_WORK", 15),
    ("HIGH_PRICE", 16),
    ("SECOND_COST", 17),
    ("LONG_TEXT", 18),
    ("SHORT_OUTPUT", 19),
    ("MANY_LITERALS", 20),
    ("SECOND_EDITION", 21),
    ("NO_LOAD", 22),
    ("SHORT_LOAD_OUTPUT", 23),
];

/// The name of the refusal `number`; 0 is none.
pub fn refusal(number: u32) -> &'static str {
    REFUSALS.iter().find(|(_, n)| *n == number).map_or("none", |(name, _)| name)
}

/// The tables that hold the case of `file`.
fn held(file: &str) -> Held {
    Held::of(&file::read(file.as_bytes()).unwrap_or_else(|r| panic!("refused with {}", r.number)))
}

/// The verdict's number of `file`, which has one query.
fn verdict(file: &str) -> u64 {
    Asking::of(file::read(file.as_bytes()).unwrap_or_else(|r| panic!("refused with {}", r.number))).verdicts()[0]
}

/// The most causes: so many with two choices, as each has two or more.
fn most_causes() -> usize {
    SETTINGS.ilog2() as usize
}

/// How many settings of causes with the `choices` add something for j causes, by j.
fn levels(choices: &[u64]) -> Vec<u64> {
    choices.iter().fold(vec![1], |lower, choices| {
        let more = [vec![0], lower.iter().map(|n| n * (choices - 1)).collect()].concat();
        [lower, vec![0]].concat().iter().zip(more).map(|(n, more)| n + more).collect()
    })
}

/// The most minimal explanations: of those causes whose choices have the product for it, the settings that add
/// something for j of them, for the j that has the most. No larger set has no two settings of which one is a subset.
fn most_minimal() -> u64 {
    let twos = |threes: usize| (SETTINGS / 3u128.pow(threes as u32)).ilog2() as usize;
    let threes = 0..=SETTINGS.ilog(3) as usize;
    let most = threes.flat_map(|n| levels(&[vec![3; n], vec![2; twos(n)]].concat())).max();
    most.expect("a setting")
}

/// The bytes of a report that has the longest of each line, and any 64-bit number as its cost, rounded up to tens.
fn longest_report() -> u64 {
    let most = SETTINGS * ATOMS as u128;
    let verdicts = "(verdict unexplained)\n".repeat(QUERIES);
    let sums = format!("(rounds {most})\n(decided {most})\n");
    let head = format!("{verdicts}{sums}(minimal {} {LIST_SLOTS})\n", most_minimal());
    let cause = format!("(cause{})\n", format!(" (false {})", "n".repeat(NAME_BYTES)).repeat(most_causes()));
    let cheapest = format!("(cheapest {})\n", u64::MAX);
    (head.len() + LIST_SLOTS * cause.len() + cheapest.len()).next_multiple_of(10) as u64
}

/// The bytes of a load that has the longest of each line.
fn longest_load() -> u64 {
    let name = format!("a{}", ATOMS - 1);
    let rule = format!("(if {name}{})\n", format!("(not {name})").repeat(3));
    let atom = format!("(atom {name})\n");
    (ATOMS * atom.len() + CLAUSES * rule.len() + "(query a0)\n".len()) as u64
}

/// Each constant and its value.
pub fn due() -> Vec<(&'static str, u64)> {
    let kind = |line: &str| held(&format!("{line}\n(query a)")).clauses[0] / 64;
    let constraint = |line: &str| held(&format!("{line}\n(query a)")).constraints[2];
    let edition = |line: &str| held(&format!("{line}\n(query a)")).record[EDITION];
    let node = |formula: &str| u64::from(held(&format!("(query {formula})")).formula[0]);
    let words = |file: &[u8]| Settling::of(file::read(file).unwrap_or_else(|_| panic!("a lawful file"))).words(0);
    let mut rows = vec![
        ("CLAUSE_WORDS", 3 * CLAUSES as u64),
        ("CONSTRAINT_WORDS", 3 * CONSTRAINTS as u64),
        ("FORMULA_BYTES", FORMULA_BYTES as u64),
        ("PART_BYTES", (FORMULA_BYTES / QUERIES) as u64),
        ("QUERIES", QUERIES as u64),
        ("LITERALS", LITERALS as u64),
        ("NAMES_BYTES", (ATOMS * NAME_BYTES) as u64),
        ("NAME_BYTES", NAME_BYTES as u64),
        ("PRICES", Held::zeros().prices.len() as u64),
        ("ATOMS", ATOMS as u64),
        ("FACT", kind("(true a)")),
        ("ASSUMPTION", kind("(false a)")),
        ("RULE", kind("(if a b)")),
        ("NEVER", constraint("(never a)")),
        ("AVOID", constraint("(avoid a)")),
        ("EDITION_1", edition("(edition 1)")),
        ("EDITION_2", edition("(edition 2)")),
        ("NOT", node("(not a)")),
        ("AND", node("(and a b)")),
        ("OR", node("(or a b)")),
        ("THEN", node("(then a b)")),
        ("SAME", node("(same a b)")),
        ("FILE_BYTES", FILE_BYTES as u64),
        ("SETTINGS", SETTINGS as u64),
        ("MINIMAL", most_minimal()),
        ("REPORT_BYTES", longest_report()),
        ("LOAD_BYTES", longest_load()),
        ("RECORD_WORDS", Held::zeros().record.len() as u64),
        ("READ_WORDS", refused(5, 1).answer.len() as u64),
        ("SETTLE_WORDS", words(M4).len() as u64),
        ("QUESTION_WORDS", unasked(13).answer.len() as u64),
        ("LAYERS_WORDS", 2 + ATOMS as u64),
        ("REPORT_WORDS", 1),
        ("WRITE_WORDS", WRITE_WORDS as u64),
        ("GENERATE_WORDS", 1),
        ("UNEXPLAINED", verdict("(if p q)\n(if q p)\n(seen p)\n(query q)")),
        ("FOLLOWS", verdict("(query (then a a))")),
        ("DENIED", verdict("(if b a (not a))\n(seen (not b))\n(query b)")),
        ("OPEN", verdict("(query a)")),
        ("READ_STACK", stack::READ as u64),
        ("SETTLE_STACK", stack::SETTLE as u64),
        ("QUESTION_STACK", stack::QUESTION as u64),
        ("LAYERS_STACK", stack::LAYERS as u64),
        ("REPORT_STACK", stack::REPORT as u64),
        ("WRITE_STACK", stack::WRITE as u64),
        ("GENERATE_STACK", stack::GENERATE as u64),
    ];
    rows.extend(REFUSALS.map(|(name, number)| (name, u64::from(number))));
    rows
}

/// The constants of the Rust module's sizes.
const SIZES: [(&str, usize); 16] = [
    ("CLAUSE_WORDS", sizes::CLAUSE_WORDS),
    ("CONSTRAINT_WORDS", sizes::CONSTRAINT_WORDS),
    ("FORMULA_BYTES", sizes::FORMULA_BYTES),
    ("PART_BYTES", sizes::PART_BYTES),
    ("NAMES_BYTES", sizes::NAMES_BYTES),
    ("NAME_BYTES", sizes::NAME_BYTES),
    ("PRICES", sizes::PRICES),
    ("ATOMS", sizes::ATOMS),
    ("RECORD_WORDS", sizes::RECORD_WORDS),
    ("QUERIES", sizes::QUERIES),
    ("LITERALS", sizes::LITERALS),
    ("FILE_BYTES", sizes::FILE_BYTES),
    ("SETTINGS", sizes::SETTINGS),
    ("MINIMAL", sizes::MINIMAL),
    ("REPORT_BYTES", sizes::REPORT_BYTES),
    ("LOAD_BYTES", sizes::LOAD_BYTES),
];

/// The names that `source` declares as constants for callers.
fn declared(source: &str) -> Vec<&str> {
    source.lines().filter_map(|line| line.strip_prefix("pub const ")?.split(':').next()).collect()
}

/// The Rust module's constants, whose sources stand in `module`; none is left out.
pub fn run(tests: &mut Tests, module: &Path) {
    tests.family("constants of the Rust module");
    let due = due();
    for (name, got) in SIZES {
        let value = due.iter().find(|(other, _)| *other == name).map(|(_, value)| *value);
        tests.call(|| String::from(name), differing(value, Some(got as u64)));
    }
    let source = std::fs::read_to_string(module.join("src/sizes.rs")).unwrap_or_default();
    tests.require("each constant of sizes.rs is compared", declared(&source) == SIZES.map(|(name, _)| name));
}
