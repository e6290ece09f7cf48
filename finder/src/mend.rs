//! How to mend a refused file.
//!
//! From: docs/MANUAL.md, The command `finder`.

use causes::Refusal;

/// How to mend a file that is refused with `refusal`.
pub fn mend(refusal: Refusal) -> &'static str {
    match refusal {
        Refusal::LongFile => "Shorten comments, or ask about fewer floors.",
        Refusal::LongLine { .. } => {
            "Shorten the names, or name a part of the form; a long comment needs `;` as its line's first byte."
        }
        Refusal::BadByte { .. } => "Write names in small letters, digits and `-`, and a comment on its own line.",
        Refusal::NotAForm { .. } => {
            "Write one whole form on the line: atom, true, false, if, never, avoid, seen, query, cost with two numbers, or \
             edition with 1 or 2."
        }
        Refusal::LongName { .. } => "Shorten the name, on every line that has it.",
        Refusal::DeepFormula { .. } => "Name a part of the query by a rule, and ask for that name.",
        Refusal::ManyNames { .. } => "Leave out the names that no reading and no query needs.",
        Refusal::ManyClauses { .. } => "Name what several rules share, or leave out rules that no reading needs.",
        Refusal::ManyQueries { .. } => "Join two queries by `and` or `or`, or write a second file.",
        Refusal::NoQuery => "Add a line such as `(query damper-shut)`.",
        Refusal::ManyCauses => {
            "Give some of the causes a line `(false N)` or `(true N)`, abnormality atoms first, or leave out a line \
             `(edition 2)`."
        }
        Refusal::HighPrice { .. } => {
            "Write the price in cents, 2000000 at most with its supplement, and the supplement in per cent, 100 at most."
        }
        Refusal::SecondCost { .. } => "Leave one cost line for each name.",
        Refusal::ManyLiterals { .. } => "Name a part of the body by a rule, and write that name in its place.",
        Refusal::SecondEdition { .. } => "Leave one edition line, the one that is meant for the whole file.",
        _ => "See the manual's section on refusals.",
    }
}
