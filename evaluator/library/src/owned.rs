//! Families of the Rust module's case, which owns its record and tables, and of its report.

use crate::calls::{layers_words, CHEAPEST, COST, DECIDED, ROUNDS};
use crate::corpus::{stored, Input};
use crate::due::{Asking, Layering, Settling};
use crate::held::Held;
use crate::tests::{differing, Complaints, Tests};
use crate::wrappers::{inputs, layers_inputs, record};
use causes::{Case, Layer, Layers, Refusal};
use evaluator::answer::{answer, LIST_SLOTS};
use evaluator::cause::{self, digits, Choice};
use evaluator::file::{self, FILE_BYTES};
use evaluator::writing::written;
use std::path::Path;

/// What reading gives: record, tables, names and causes of an accepted file, the refusal of another.
fn reads(tests: &mut Tests, inputs: &[Input]) {
    tests.family("case: read");
    for input in inputs {
        let got = Case::read(&input.bytes);
        let complaints = match (file::read(&input.bytes), &got) {
            (Ok(said), Ok(case)) => read(&said, case),
            (Err(due), Err(got)) => differing((due.number, due.line as u64), (got.number(), got.line().unwrap_or(0))),
            (due, _) => vec![format!("accepted by the evaluator: {}, got {got:?}", due.is_ok())],
        };
        tests.call(|| input.name.clone(), complaints);
    }
}

/// The complaints on `case`, which should say what `said` does.
fn read(said: &evaluator::case::Case, case: &Case) -> Complaints {
    let held = Held::of(said);
    let tables = case.tables();
    let names: Vec<&str> = said.names.iter().map(String::as_str).collect();
    let found = said.causes();
    let choices = |atom: usize| found.iter().find(|c| c.atom == atom).map_or(1, |c| c.choices.len() as u64);
    [
        differing(&record(said, &held), case.record()),
        differing(held.clauses.as_slice(), &tables.clauses),
        differing(held.constraints.as_slice(), &tables.constraints),
        differing(held.formula.as_slice(), &tables.formula),
        differing(held.names.as_slice(), &tables.names),
        differing(held.prices.as_slice(), &tables.prices),
        differing(names.clone(), case.names().collect()),
        differing(names.last().copied(), case.name(names.len() - 1)),
        differing(None, case.name(names.len())),
        differing(said.prices.clone(), (0..).map_while(|atom| case.price(atom)).collect()),
        differing(said.edition.number(), case.edition()),
        differing(found.iter().map(|c| c.atom).collect(), case.causes()),
        differing((0..70).map(choices).collect::<Vec<_>>(), (0..70).map(|atom| case.choices(atom)).collect()),
        differing(cause::settings(&found), u128::from(case.settings())),
    ]
    .concat()
}

/// A setting's digits by name, as the report's line has them.
fn line(said: &evaluator::case::Case, setting: usize) -> String {
    let found = said.causes();
    let choices = found.iter().zip(digits(setting, &found)).map(|(cause, digit)| (cause.atom, cause.choices[digit]));
    let added = choices.filter(|(_, choice)| *choice != Choice::Nothing);
    let added = added.map(|(atom, choice)| format!(" ({} {})", choice == Choice::Fact, said.names[atom]));
    format!("(cause{})", added.collect::<String>())
}

/// Settles settings, names them, and asks the question.
fn questions(tests: &mut Tests, inputs: &[Input]) {
    tests.family("case: settings and question");
    for input in inputs {
        let (Ok(said), Ok(case)) = (file::read(&input.bytes), Case::read(&input.bytes)) else { continue };
        let name = || input.name.clone();
        let mut settling = Settling::of(said.clone());
        let end = settling.settings();
        for s in [0, end / 2, end - 1] {
            let got = case.settle(s).map(|a| [a.trues, a.falses, a.rounds, a.decided]);
            tests.call(name, differing(Ok(settling.words(s)), got));
            let got = case.explanation(s).map(|e| (e.setting, e.to_string()));
            tests.call(name, differing(Ok((s, line(&said, s as usize))), got));
        }
        tests.call(name, differing(Err(Refusal::NoSetting), case.settle(end)));
        tests.call(name, differing(Err(Refusal::NoSetting), case.explanation(end)));
        tests.call(name, asked(&said, &case));
    }
}

/// The complaints on the answer of `case`, which should say what `said` does.
fn asked(said: &evaluator::case::Case, case: &Case) -> Complaints {
    let asking = Asking::of(said.clone());
    let due = asking.due(asking.minimal());
    let got = case.question();
    let settings: Vec<u64> = got.explanations.iter().map(|e| e.setting).collect();
    let lines: Vec<String> = got.explanations.iter().map(|e| e.to_string()).collect();
    let due_lines: Vec<String> = due.list.iter().map(|s| line(said, usize::from(*s))).collect();
    let verdicts: Vec<u64> = got.verdicts.iter().map(|verdict| *verdict as u64).collect();
    let cheapest = (asking.minimal() > 0).then(|| line(said, due.answer[CHEAPEST] as usize));
    let named = got.explanations.iter().all(|e| e.causes.iter().all(|c| said.names.iter().any(|n| n == c.name)));
    [
        differing(asking.verdicts(), verdicts),
        differing(due.answer[0], got.verdict() as u64),
        differing((due.answer[ROUNDS], due.answer[DECIDED]), (got.rounds, got.decided)),
        differing((due.answer[COST], cheapest), (got.cost, got.cheapest.map(|e| e.to_string()))),
        differing(due.list.iter().map(|s| u64::from(*s)).collect(), settings),
        differing(due_lines, lines),
        differing(true, named),
    ]
    .concat()
}

/// The layers of each case by name: those of the plain call, which are right.
fn layers(tests: &mut Tests, inputs: &[Input]) {
    tests.family("case: layers");
    let mut met = [0, 0];
    for input in inputs {
        let (Ok(said), Ok(case)) = (file::read(&input.bytes), Case::read(&input.bytes)) else { continue };
        let words = layers_words(&Held::of(&said));
        let name = || input.name.clone();
        tests.call(name, Layering::of(&said).complaint(&words).into_iter().collect());
        met[usize::from(words[0] == 1)] += 1;
        let entries = words[2..].iter().take(words[1] as usize);
        let due = if words[0] == 1 {
            Layers::Numbers(said.names.iter().zip(entries).map(|(name, n)| Layer { name, number: *n }).collect())
        } else {
            Layers::Ring(entries.map(|atom| said.names.get(*atom as usize).map_or("", String::as_str)).collect())
        };
        tests.call(name, differing(due, case.layers()));
    }
    tests.require("layered cases and rings", met.iter().all(|n| *n > 20));
}

/// The report and the text of each file.
fn reports(tests: &mut Tests, inputs: &[Input]) {
    tests.family("case: report");
    for input in inputs {
        let due = answer(&input.bytes);
        let text = due.text.as_bytes();
        tests.call(|| input.name.clone(), differing(text, &causes::text(&input.bytes)));
        let report = match due.result {
            Ok(_) => Ok(text.to_vec()),
            Err(refusal) => Err(Refusal::from_number(refusal.number, refusal.line as u64)),
        };
        tests.call(|| input.name.clone(), differing(report, causes::report(&input.bytes)));
    }
}

/// The text of each case, or the refusal.
fn texts(tests: &mut Tests, inputs: &[Input]) {
    tests.family("case: write");
    for input in inputs {
        let (Ok(said), Ok(case)) = (file::read(&input.bytes), Case::read(&input.bytes)) else { continue };
        let due = written(&Held::of(&said).full(), FILE_BYTES).map(String::into_bytes);
        let due = due.map_err(|number| Refusal::from_number(number, 0));
        tests.call(|| input.name.clone(), differing(due, case.write()));
    }
}

/// All families of the case that owns its tables.
pub fn run(tests: &mut Tests, folder: &Path) {
    let mut inputs = inputs(folder);
    inputs.extend(stored(folder, "edges"));
    reads(tests, &inputs);
    questions(tests, &inputs);
    let longer = inputs.iter().any(|input| answer(&input.bytes).result.is_ok_and(|(_, found)| found > LIST_SLOTS));
    tests.require("a case with more explanations than the program lists", longer);
    layers(tests, &layers_inputs(folder));
    reports(tests, &inputs);
    texts(tests, &inputs);
}
