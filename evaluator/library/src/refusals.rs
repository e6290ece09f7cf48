//! Families of the Rust module's refusals and verdicts: their names, numbers, lines and texts.

use crate::constants::REFUSALS;
use crate::meanings::{meaning, section};
use crate::tests::{differing, Tests};
use causes::{Refusal, Verdict};
use std::path::Path;

/// The refusal that `name` is called, at line 7.
fn named(name: &str) -> Refusal {
    let line = 7;
    match name {
        "SHORT" => Refusal::ShortTable,
        "LONG_FILE" => Refusal::LongFile,
        "LONG_LINE" => Refusal::LongLine { line },
        "BAD_BYTE" => Refusal::BadByte { line },
        "NOT_A_FORM" => Refusal::NotAForm { line },
        "LONG_NAME" => Refusal::LongName { line },
        "DEEP_FORMULA" => Refusal::DeepFormula { line },
        "MANY_NAMES" => Refusal::ManyNames { line },
        "MANY_CLAUSES" => Refusal::ManyClauses { line },
        "MANY_QUERIES" => Refusal::ManyQueries { line },
        "NO_QUERY" => Refusal::NoQuery,
        "MANY_CAUSES" => Refusal::ManyCauses,
        "UNSOUND" => Refusal::Unsound,
        "NO_SETTING" => Refusal::NoSetting,
        "SHORT_WORK" => Refusal::ShortWork,
        "HIGH_PRICE" => Refusal::HighPrice { line },
        "SECOND_COST" => Refusal::SecondCost { line },
        "LONG_TEXT" => Refusal::LongText,
        "SHORT_OUTPUT" => Refusal::ShortOutput,
        "MANY_LITERALS" => Refusal::ManyLiterals { line },
        "SECOND_EDITION" => Refusal::SecondEdition { line },
        "NO_LOAD" => Refusal::NoLoad,
        _ => Refusal::ShortLoadOutput,
    }
}

/// Each refusal of documents 01 and 02, and a number that is none.
fn refusals(tests: &mut Tests, root: &Path) {
    tests.family("refusals of the Rust module");
    let section = section(root);
    for (name, number) in REFUSALS {
        let what = || format!("{name}, {number}");
        let got = Refusal::from_number(number, 7);
        tests.call(what, differing(named(name), got));
        let line = ((3..=10).contains(&number) || [16, 17, 20, 21].contains(&number)).then_some(7);
        tests.call(what, differing((number, line), (got.number(), got.line())));
        let text = meaning(&section, number).unwrap_or_default();
        tests.require(&format!("the manual's meaning of {number}"), !text.is_empty());
        tests.call(what, differing(text.as_str(), got.meaning()));
        let place = if line.is_some() { " in line 7" } else { "" };
        tests.call(what, differing(format!("refused with {number}{place}: {text}"), got.to_string()));
    }
    for number in [24, 25, 26, 99] {
        let got = Refusal::from_number(number, 3);
        let due = Refusal::Other { number, line: 3 };
        tests.call(|| number.to_string(), differing((due, number, Some(3)), (got, got.number(), got.line())));
        let text = got.to_string();
        let head = format!("refused with {number} in line 3: ");
        tests.require("a number that is none is told with its line", text.starts_with(&head));
        tests.require("no line is told as 0", Refusal::from_number(number, 0).line().is_none());
    }
}

/// Each verdict by number and word.
fn verdicts(tests: &mut Tests) {
    tests.family("verdicts of the Rust module");
    let rows = [
        (0, Verdict::Unexplained, "unexplained"),
        (1, Verdict::Follows, "follows"),
        (2, Verdict::Denied, "denied"),
        (3, Verdict::Open, "open"),
    ];
    for (number, verdict, word) in rows {
        let what = || String::from(word);
        tests.call(what, differing(Some(verdict), Verdict::from_number(number)));
        tests.call(what, differing(word, &verdict.to_string()));
    }
    for number in [4, 5, u64::MAX] {
        tests.call(|| number.to_string(), differing(None, Verdict::from_number(number)));
    }
}

/// All families of refusals and verdicts; `root` is the repository.
pub fn run(tests: &mut Tests, root: &Path) {
    refusals(tests, root);
    verdicts(tests);
}
