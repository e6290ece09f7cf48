//! Families of the report: stored and generated files, with outputs around the length of the text.

use crate::calls::other_number;
use crate::corpus::{folders, generated, refused_files, Input, EACH};
use crate::lent::Lent;
use crate::tests::{Complaints, Tests};
use causes::raw;
use evaluator::answer::answer;
use std::path::Path;

/// The seeds of the generated files that are reported.
const SEEDS: u64 = 600;

/// Writes the report of `file` to an output of `bytes` bytes; `due` are the number, the answer's words and the text.
fn report(file: &[u8], bytes: usize, words: usize, due: (u32, &[u64], &[u8])) -> Complaints {
    let file = Lent::holding(file);
    let mut out = Lent::blank(bytes);
    let mut answer = Lent::blank(words);
    // SAFETY: each pointer comes with the number of entries that its own memory has.
    let got =
        unsafe { raw::causes_report(file.at(), file.len(), out.at_mut(), out.len(), answer.at_mut(), answer.len()) };
    let complaints = [
        other_number(due.0, got),
        file.complaint("file", &[]),
        out.complaint("output", due.2),
        answer.complaint("answer", due.1),
    ];
    complaints.into_iter().flatten().collect()
}

/// Reports `file`, whose text is `text`, to outputs of 0 and 1 bytes and of one byte less to seven more than the text.
pub fn lengths(tests: &mut Tests, name: &str, file: &[u8], text: &[u8]) {
    let length = text.len();
    let words = [length as u64];
    for bytes in [0, 1, length - 1] {
        let due = (19, [0].as_slice(), [].as_slice());
        tests.call(|| format!("{name}, {bytes} bytes"), report(file, bytes, 1 + bytes % 2, due));
    }
    for bytes in [length, length + 1, length + 7] {
        let due = (0, words.as_slice(), text);
        tests.call(|| format!("{name}, {bytes} bytes"), report(file, bytes, 1 + bytes % 3, due));
    }
    let due = (1, [].as_slice(), [].as_slice());
    tests.call(|| format!("{name}, no word"), report(file, length, 0, due));
}

/// Reports each of `inputs`: a stored one as its report says, a generated one as the evaluator does.
fn files(tests: &mut Tests, name: &str, inputs: &[Input]) {
    tests.family(name);
    for input in inputs {
        let text = input.report.clone().unwrap_or_else(|| answer(&input.bytes).text.into_bytes());
        lengths(tests, &input.name, &input.bytes, &text);
    }
}

/// Reports each of `inputs`, which are stored, to an output of one byte more than its text.
fn once(tests: &mut Tests, name: &str, inputs: &[Input]) {
    tests.family(name);
    for Input { name, bytes, report: text } in inputs {
        let text = text.as_ref().expect("a stored report");
        let words = [text.len() as u64];
        tests.call(|| name.clone(), report(bytes, text.len() + 1, 1, (0, &words, text)));
    }
}

/// All families of the report.
pub fn run(tests: &mut Tests, folder: &Path) {
    for (name, inputs) in folders(folder) {
        let family = format!("report: stored files, {name}");
        if name == "load" {
            once(tests, &family, &inputs);
        } else {
            files(tests, &family, &inputs);
        }
    }
    files(tests, "report: generated files", &generated(SEEDS, |s| s % 20 != 0));
    tests.family("report: refused files");
    for (number, line, file) in refused_files() {
        lengths(tests, &format!("refusal {number}"), &file, format!("(refused {number} {line})\n").as_bytes());
    }
    tests.family("report: outputs of each length");
    let text = answer(EACH).text.into_bytes();
    for bytes in 0..2 * text.len() {
        let (number, words, written) = match bytes < text.len() {
            true => (19, [0], [].as_slice()),
            false => (0, [text.len() as u64], text.as_slice()),
        };
        tests.call(|| format!("{bytes} bytes"), report(EACH, bytes, 1, (number, &words, written)));
    }
}
