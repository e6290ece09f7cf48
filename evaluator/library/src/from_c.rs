//! Families of the C headers: a program in C (c/caller.c) that names every constant, calls every function and prints
//! what it gets, compared with the evaluator.

use crate::calls::{LAYERS_WORDS, SETTLED_WORDS};
use crate::constants::{due as constants, refusal};
use crate::corpus::{all_folders, refused_files, Input, EACH, M4};
use crate::due::{self, unasked, Asking, Layering, Settling};
use crate::held::{padded, Held, ATOMS, EDITION, QUERIES};
use crate::meanings::{meaning, section};
use crate::tests::{differing, Complaints, Tests};
use evaluator::answer::answer;
use evaluator::file;
use evaluator::writing::{self, tidied, tidy_text};
use std::fmt::{Display, Write as _};
use std::io::Write as _;
use std::path::Path;
use std::process::{Command, Stdio};

/// What the list's slots, the work area and the output have before a call.
const SLOT: u16 = 0xeeee;
const BYTE: u8 = 0xee;
const OUT: u8 = b'?';

/// The names of the verdicts by number.
const VERDICTS: [&str; 4] = ["UNEXPLAINED", "FOLLOWS", "DENIED", "OPEN"];

/// What `program` writes with the arguments `words`, a file on standard input; why it did not end well.
fn written(program: &Path, words: &[String], input: &[u8]) -> Result<Vec<u8>, String> {
    let started = Command::new(program).args(words).stdin(Stdio::piped()).stdout(Stdio::piped()).spawn();
    let mut running = started.map_err(|e| format!("{}: {e}", program.display()))?;
    // The program may end without reading its input, which then can't be written.
    let _ = running.stdin.take().expect("a pipe").write_all(input);
    let ended = running.wait_with_output().map_err(|e| e.to_string())?;
    if ended.status.success() {
        Ok(ended.stdout)
    } else {
        Err(format!("ended with {}", ended.status))
    }
}

/// The complaint that `program` writes another line than is due, the first of them.
fn compared(program: &Path, words: &[String], input: &[u8], due: &[u8]) -> Complaints {
    match written(program, words, input) {
        Ok(got) => other_line(due, &got),
        Err(fault) => vec![fault],
    }
}

/// The lines of `bytes`.
fn lines(bytes: &[u8]) -> Vec<Vec<u8>> {
    bytes.split(|b| *b == b'\n').map(<[u8]>::to_vec).collect()
}

/// The complaint that `got` has another line than is due, the first of them.
fn other_line(due: &[u8], got: &[u8]) -> Complaints {
    let (due, got) = (lines(due), lines(got));
    let at = (0..due.len().max(got.len())).find(|i| due.get(*i) != got.get(*i));
    let shown = |line: Option<&Vec<u8>>| line.map(|l| String::from_utf8_lossy(l).chars().take(120).collect::<String>());
    at.map(|i| format!("line {}: expected {:?}, got {:?}", i + 1, shown(due.get(i)), shown(got.get(i))))
        .into_iter()
        .collect()
}

/// A line of a name and what follows it, a space before each.
fn line<T: Display>(name: &str, items: impl IntoIterator<Item = T>) -> String {
    let mut text = String::from(name);
    for item in items {
        write!(text, " {item}").expect("a text that grows");
    }
    text + "\n"
}

/// The memory with which a file's calls are made.
struct Lent {
    setting: u64,
    slots: usize,
    work: usize,
    out: usize,
    text: usize,
}

/// What settling and the question of a file answer: a number and the words each, then the list and the work area.
struct Answers {
    settled: (u32, [u64; SETTLED_WORDS]),
    question: (u32, Vec<u64>),
    list: Vec<u16>,
    work: Vec<u8>,
}

/// The answers due for `bytes`; a refused file leaves a record that is not sound.
fn answers(bytes: &[u8], lent: &Lent) -> Answers {
    let (settled, due) = match file::read(bytes) {
        Err(_) => ((13, [0; SETTLED_WORDS]), unasked(13)),
        Ok(case) => {
            let mut settling = Settling::of(case.clone());
            let past = lent.setting >= settling.settings();
            let settled = if past { (14, [0; SETTLED_WORDS]) } else { (0, settling.words(lent.setting)) };
            let asking = Asking::of(case);
            (settled, if lent.work < asking.settings() { unasked(15) } else { asking.due(lent.slots) })
        }
    };
    let (mut list, mut work) = (vec![SLOT; lent.slots], vec![BYTE; lent.work]);
    list[..due.list.len()].copy_from_slice(&due.list);
    work[..due.work.len()].copy_from_slice(&due.work);
    Answers { settled, question: (due.refusal, due.answer), list, work }
}

/// The lines of the tables that a reading leaves.
fn table_lines(tables: &Held) -> String {
    line("clauses", &tables.clauses)
        + &line("constraints", &tables.constraints)
        + &line("formula", &tables.formula)
        + &line("names", &tables.names)
        + &line("prices", &tables.prices)
}

/// The tables that a reading with `due` leaves, which were full of `BYTE`.
fn left(due: &crate::calls::ReadDue) -> Held {
    let mut untouched = Held::zeros();
    untouched.clauses.fill(u64::from_ne_bytes([BYTE; 8]));
    untouched.constraints.fill(u64::from_ne_bytes([BYTE; 8]));
    untouched.formula.fill(BYTE);
    untouched.names.fill(BYTE);
    untouched.prices.fill(u32::from_ne_bytes([BYTE; 4]));
    due.tables.clone().unwrap_or(untouched)
}

/// The line with the names of the first `count` verdicts of a question's answer.
fn question_line((number, words): &(u32, Vec<u64>), count: usize) -> String {
    let names = words[..count].iter().map(|verdict| VERDICTS[*verdict as usize]);
    line("question", [refusal(*number)].into_iter().chain(names))
}

/// The line of a ring that is right; which one it is stays free.
const RING: &str = "layers none ring\n";

/// The line of the layers due for `bytes`; a refused file leaves a record that is not sound.
fn layers_line(bytes: &[u8]) -> String {
    let (number, words) = match file::read(bytes).map(|case| Layering::of(&case).numbers) {
        Err(_) => (13, Vec::new()),
        Ok(None) => return String::from(RING),
        Ok(Some(numbers)) => (0, [vec![1, numbers.len() as u64], numbers].concat()),
    };
    format!("layers {}{}", refusal(number), line("", padded(words, LAYERS_WORDS)))
}

/// Whether `line` tells a ring of the case of `bytes`.
fn is_ring_line(bytes: &[u8], line: &[u8]) -> bool {
    let text = String::from_utf8_lossy(line);
    let words: Vec<u64> = text.split(' ').skip(2).filter_map(|word| word.parse().ok()).collect();
    let layering = file::read(bytes).map(|case| Layering::of(&case));
    layering.is_ok_and(|layering| layering.numbers.is_none() && layering.complaint(&words).is_none())
}

/// What the program printed for `bytes`, with `RING` for the first ring told, if it is one, and for the same again.
fn told(bytes: &[u8], printed: &[u8]) -> Vec<u8> {
    let mut all = lines(printed);
    let first = all.iter().find(|line| line.starts_with(b"layers none ")).cloned().unwrap_or_default();
    if is_ring_line(bytes, &first) {
        all.iter_mut().filter(|line| **line == first).for_each(|line| *line = RING.trim_end().into());
    }
    all.join(&b'\n')
}

/// What writing the case of `bytes` answers with an output of `lent.text` bytes: the number, the length, the output; a
/// refused file leaves a record that is not sound.
fn written_back(bytes: &[u8], lent: &Lent) -> (u32, usize, Vec<u8>) {
    let mut out = vec![OUT; lent.text];
    let text = file::read(bytes).map_err(|_| 13).and_then(|case| writing::written(&Held::of(&case).full(), lent.text));
    let text = match text {
        Ok(text) => text,
        Err(number) => return (number, 0, out),
    };
    out[..text.len()].copy_from_slice(text.as_bytes());
    (0, text.len(), out)
}

/// What the plain calls print for `bytes`.
fn plain(bytes: &[u8], lent: &Lent) -> Vec<u8> {
    let read = due::read(bytes);
    let answers = answers(bytes, lent);
    let text = answer(bytes).text;
    let short = lent.out < text.len();
    let mut out = vec![OUT; lent.out];
    if !short {
        out[..text.len()].copy_from_slice(text.as_bytes());
    }
    let mut lines = line("read", [refusal(read.refusal)]) + &line("found", &read.answer) + &table_lines(&left(&read));
    lines += &(line("settle", [refusal(answers.settled.0)]) + &line("settled", answers.settled.1));
    lines += &(question_line(&answers.question, QUERIES) + &line("answer", &answers.question.1));
    lines += &(line("list", &answers.list) + &line("work", &answers.work));
    lines += &layers_line(bytes);
    lines += &line("report", [refusal(if short { 19 } else { 0 })]);
    lines += &line("length", [if short { 0 } else { text.len() }]);
    let (number, length, text) = written_back(bytes, lent);
    let rest = line("write", [refusal(number)]) + &line("length", [length]);
    [lines.as_bytes(), &out, b"\n", rest.as_bytes(), &text, b"\n"].concat()
}

/// What the struct's calls print for `bytes`.
fn by_struct(bytes: &[u8], lent: &Lent) -> Vec<u8> {
    let read = due::read(bytes);
    let answers = answers(bytes, lent);
    let tables = left(&read);
    let (names, found, queries) = match file::read(bytes) {
        Ok(case) => (case.names.clone(), case.causes(), case.queries.len()),
        Err(_) => (Vec::new(), Vec::new(), 0),
    };
    let choices = |atom: usize| found.iter().find(|c| c.atom == atom).map_or(1, |c| c.choices.len());
    let mut lines = line("read", [refusal(read.refusal).to_owned(), read.answer[0].to_string()]);
    lines += &(line("record", &read.answer[1..]) + &table_lines(&tables));
    lines += &(line("causes", found.iter().map(|c| c.atom)) + &line("choices", (0..=ATOMS).map(choices)));
    lines += &line("edition", [read.answer[1 + EDITION]]);
    let mut rows: Vec<Vec<u8>> = Vec::new();
    for atom in 0..=64 {
        let untouched = if read.tables.is_none() && atom < 64 { vec![BYTE; 16] } else { Vec::new() };
        let name = names.get(atom).map_or(untouched, |name| name.clone().into_bytes());
        rows.push([b"name ".as_slice(), &name, b"\n"].concat());
    }
    let (verdicts, counts) = answers.question.1.split_at(QUERIES);
    let answered = if answers.question.0 == 0 { queries } else { 0 };
    let mut rest = format!("settle {}{}", refusal(answers.settled.0), line("", answers.settled.1));
    rest += &(question_line(&answers.question, answered) + &line("verdicts", verdicts) + &line("counts", counts));
    rest += &(line("list", &answers.list) + &line("work", &answers.work));
    rest += &layers_line(bytes);
    let (number, length, text) = written_back(bytes, lent);
    rest += &line("write", [refusal(number).to_owned(), length.to_string()]);
    let last = line("read", [refusal(read.refusal)]);
    [lines.into_bytes(), rows.concat(), rest.into_bytes(), text, b"\n".to_vec(), last.into_bytes()].concat()
}

/// Calls every function on each of `inputs`: once with enough of everything, once past each limit.
fn calls(tests: &mut Tests, program: &Path, inputs: &[Input]) {
    tests.family("C: every function on files");
    for input in inputs {
        let settings = file::read(&input.bytes).map_or(1, |case| Settling::of(case).settings());
        let (out, text) = (answer(&input.bytes).text.len(), tidy_text(&tidied(&input.bytes)).len());
        let rows = [
            Lent { setting: settings - 1, slots: 3, work: settings as usize, out, text },
            Lent { setting: settings, slots: 0, work: settings as usize - 1, out: out - 1, text: text - 1 },
            Lent { setting: 0, slots: 1, work: settings as usize, out: out + 2, text: text + 2 },
        ];
        for lent in rows {
            let numbers = [lent.setting, lent.slots as u64, lent.work as u64, lent.out as u64, lent.text as u64];
            let words: Vec<String> =
                [String::from("calls")].into_iter().chain(numbers.iter().map(u64::to_string)).collect();
            let due = [plain(&input.bytes, &lent), by_struct(&input.bytes, &lent)].concat();
            let complaints = match written(program, &words, &input.bytes) {
                Ok(got) => other_line(&due, &told(&input.bytes, &got)),
                Err(fault) => vec![fault],
            };
            tests.call(|| format!("{}, {words:?}", input.name), complaints);
        }
    }
}

/// Each lent memory one element short: 1 wherever it has a least size.
fn short(tests: &mut Tests, program: &Path) {
    tests.family("C: memory one element short");
    let row = |answers: [u32; 6]| line(refusal(answers[0]), answers[1..].iter().map(|number| refusal(*number)));
    let tables = row([1, 1, 1, 1, 1, 0]).repeat(4);
    let prices = row([1, 0, 1, 0, 1, 0]);
    let record = row([0, 0, 0, 0, 1, 0]);
    let due = line("read", ["none"]) + &tables + &prices + &row([1; 6]) + &record + &row([0; 6]);
    for file in [M4, EACH] {
        tests.call(|| String::from("short"), compared(program, &[String::from("short")], file, due.as_bytes()));
    }
}

/// Every constant that the headers `texts` define.
fn defined(texts: &str) -> Vec<String> {
    let is_part = |c: char| c.is_ascii_alphanumeric() || c == '_';
    let words = texts.split(|c| !is_part(c)).filter_map(|word| word.strip_prefix("CAUSES_"));
    let mut names: Vec<String> = words.filter(|w| !["H", "CASE_H", "VERSION"].contains(w)).map(String::from).collect();
    names.sort();
    names.dedup();
    names
}

/// The constants, none left out, the texts of the refusals and the version.
fn texts(tests: &mut Tests, program: &Path, root: &Path) {
    tests.family("C: constants");
    let due = constants();
    let got = written(program, &[String::from("constants")], &[]).unwrap_or_default();
    let got = String::from_utf8_lossy(&got).into_owned();
    for (name, value) in &due {
        let found = got.lines().find_map(|l| l.strip_prefix(&format!("{name} ")));
        tests.call(|| format!("CAUSES_{name}"), differing(Some(value.to_string().as_str()), found));
    }
    let header = |name: &str| std::fs::read_to_string(root.join("crates/embed/c").join(name)).unwrap_or_default();
    let mut names: Vec<String> = due.iter().map(|(name, _)| String::from(*name)).collect();
    names.sort();
    tests.call(|| String::from("names"), differing(names, defined(&(header("causes.h") + &header("causes_case.h")))));
    tests.family("C: texts");
    let section = section(root);
    let meanings = (0..=40).filter_map(|number| Some((number, meaning(&section, number)?)));
    let lines: String = meanings.map(|(number, meaning)| format!("{number} {meaning}\n")).collect();
    let due = format!("{lines}{} {}\n", causes::VERSION, causes::VERSION);
    tests.call(|| String::from("texts"), compared(program, &[String::from("texts")], &[], due.as_bytes()));
}

/// All families of the C headers; `root` is the repository, `program` the built caller.
pub fn run(tests: &mut Tests, root: &Path, program: &Path) {
    let folder = root.join("tests");
    let made = |bytes: Vec<u8>| Input { name: String::from("made here"), bytes, report: None };
    let mut inputs = vec![made(EACH.to_vec())];
    let is_called = |name: &str| ["marked", "vectors", "edges"].contains(&name) || name.starts_with("requests");
    let called = all_folders(&folder).into_iter().filter(|(name, _)| is_called(name));
    inputs.extend(called.flat_map(|(_, inputs)| inputs));
    inputs.extend(refused_files().into_iter().map(|(_, _, file)| made(file)));
    texts(tests, program, root);
    short(tests, program);
    calls(tests, program, &inputs);
}
