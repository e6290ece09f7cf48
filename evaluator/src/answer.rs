//! The text that `causes` should write for a file.
//!
//! From: document 01, The program `causes`; document 02, [1], [6], [7], [10].

use crate::case::Case;
use crate::cause::{digits, Choice};
use crate::file::{read, Refusal};
use crate::question::{ask, ask_unheld, Findings, Verdict};

/// The slots of the program's list.
pub const LIST_SLOTS: usize = 1_024;

/// What a file should get: the text, and for the summary of a run the refusal, or the verdicts and the number m; how
/// many settings were settled, and in how many of them every model was gone through.
pub struct Answer {
    pub text: String,
    pub result: Result<(Vec<Verdict>, usize), Refusal>,
    pub settings: usize,
    pub searched: usize,
}

/// The case of a file with what is found of it, or the refusal.
pub type Asked = Result<(Case, Findings), Refusal>;

/// What is found of the file `bytes`, where what is settled is not held to the definition.
pub fn asked(bytes: &[u8]) -> Asked {
    read(bytes).map(|case| (case.clone(), ask_unheld(case)))
}

/// What the file `bytes` should get.
pub fn answer(bytes: &[u8]) -> Answer {
    match read(bytes) {
        Err(refusal) => {
            let text = format!("(refused {} {})\n", refusal.number, refusal.line);
            Answer { text, result: Err(refusal), settings: 0, searched: 0 }
        }
        Ok(case) => {
            let names = case.names.clone();
            let findings = ask(case);
            let text = text(&findings, &names);
            let (settings, searched) = (findings.explains.len(), findings.searched);
            Answer { text, result: Ok((findings.verdicts, findings.minimal.len())), settings, searched }
        }
    }
}

/// The lines that give `findings`, with atoms named by `names`.
pub fn text(findings: &Findings, names: &[String]) -> String {
    let found = findings.minimal.len();
    let listed = found.min(LIST_SLOTS);
    let mut text: String = findings.verdicts.iter().map(|v| format!("(verdict {})\n", v.word())).collect();
    text.push_str(&format!("(rounds {})\n(decided {})\n", findings.rounds, findings.decided));
    text.push_str(&format!("(minimal {found} {listed})\n"));
    for setting in &findings.minimal[..listed] {
        text.push_str("(cause");
        for (cause, digit) in findings.causes.iter().zip(digits(*setting, &findings.causes)) {
            match cause.choices[digit] {
                Choice::Fact => text.push_str(&format!(" (true {})", names[cause.atom])),
                Choice::Assumption => text.push_str(&format!(" (false {})", names[cause.atom])),
                Choice::Nothing | Choice::Both => (),
            }
        }
        text.push_str(")\n");
    }
    if found > 0 {
        text.push_str(&format!("(cheapest {})\n", findings.cheapest.cost));
    }
    text
}
