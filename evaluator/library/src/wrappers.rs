//! Families of the safe calls over lent memory: what the evaluator finds, field by field.

use crate::calls::layers_words;
use crate::corpus::{all_folders, generated, refused_files, stored, Input};
use crate::due::{self, Asking, Layering, Settling};
use crate::held::{masks, padded, Held, EDITION, NODES, QUERIES, RECORD_WORDS};
use crate::tests::{differing, Complaints, Tests};
use causes::lent::{self, Record, Tables};
use causes::Refusal;
use evaluator::case::Case;
use evaluator::file::{self, FILE_BYTES};
use evaluator::formula::{FALSE, TRUE};
use evaluator::model::mask;
use evaluator::sample::{SAMPLES, SHAPES, TEXTS};
use evaluator::writing::written;
use std::path::Path;

/// The tables of `held` as the safe calls have them.
pub fn tables(held: &Held) -> Tables {
    let mut tables = Tables::new();
    tables.clauses.copy_from_slice(&held.clauses);
    tables.constraints.copy_from_slice(&held.constraints);
    tables.formula.copy_from_slice(&held.formula);
    tables.names.copy_from_slice(&held.names);
    tables.prices.copy_from_slice(&held.prices);
    tables
}

/// The record of `case`, each field from what the evaluator read.
pub fn record(case: &Case, held: &Held) -> Record {
    let [plain, negated] = masks(&case.observations);
    let mut record = Record::default();
    record.atoms = case.names.len() as u64;
    record.clauses = case.clauses.len() as u64;
    record.constraints = case.constraints.len() as u64;
    record.formulas = case.queries.len() as u64;
    record.plain = plain;
    record.negated = negated;
    record.nodes.copy_from_slice(&held.record[NODES..EDITION]);
    record.edition = case.edition.number();
    record
}

/// The complaints on a record's words, and on the record in these words.
fn words(record: &Record, held: &Held) -> Complaints {
    let words: [u64; RECORD_WORDS] = held.record.as_slice().try_into().expect("a record");
    [differing(words, record.words()), differing(record, &Record::from_words(words))].concat()
}

/// Reads each file by the safe call.
fn reads(tests: &mut Tests, inputs: &[Input]) {
    tests.family("safe calls: read");
    for input in inputs {
        let mut got = Tables::new();
        got.names.fill(7);
        got.prices.fill(7);
        let before = got.clone();
        let read = lent::read(&input.bytes, &mut got);
        let due = due::read(&input.bytes);
        let left = due.tables.as_ref().map_or(before, tables);
        let answer = match file::read(&input.bytes) {
            Ok(case) => Ok(record(&case, &Held::of(&case))),
            Err(refusal) => Err((refusal.number, refusal.line as u64)),
        };
        let read = read.map_err(|refusal| (refusal.number(), refusal.line().unwrap_or(0)));
        tests.call(|| input.name.clone(), differing((answer, left), (read, got)));
    }
}

/// The names that a read table has, row by row, and no row past the last.
fn names(tests: &mut Tests, inputs: &[Input]) {
    tests.family("safe calls: names");
    for input in inputs {
        let Ok(case) = file::read(&input.bytes) else { continue };
        let held = Held::of(&case);
        let tables = tables(&held);
        tests.call(|| format!("{}, words", input.name), words(&record(&case, &held), &held));
        for atom in 0..=64 {
            let name = case.names.get(atom).map_or(&[][..], |name| name.as_bytes());
            let due = (atom < 64).then_some(name);
            tests.call(|| format!("{}, atom {atom}", input.name), differing(due, tables.name(atom)));
        }
    }
}

/// Settles and asks each file by the safe calls, refusals too.
fn cases(tests: &mut Tests, inputs: &[Input]) {
    tests.family("safe calls: settle and question");
    let mut several = false;
    for input in inputs {
        let Ok(said) = file::read(&input.bytes) else { continue };
        let held = Held::of(&said);
        let (record, tables) = (record(&said, &held), tables(&held));
        let mut settling = Settling::of(said.clone());
        let end = settling.settings();
        let name = || input.name.clone();
        tests.call(name, settled(&mut settling, end - 1, lent::settle(&record, &tables, end - 1)));
        tests.call(name, differing(Err(Refusal::NoSetting), lent::settle(&record, &tables, end)));
        let asking = Asking::of(said);
        let due = asking.due(1);
        several |= asking.minimal() > 1;
        let (mut list, mut work) = (vec![0; 1], vec![0; end as usize]);
        let got = lent::question(&record, &tables, &mut list, &mut work);
        let shown = got.map(|a| {
            let verdicts: Vec<u64> = a.verdicts().iter().map(|verdict| *verdict as u64).collect();
            let counts = vec![a.minimal, a.listed as u64, a.rounds, a.decided, a.cost, a.cheapest];
            [padded(verdicts, QUERIES), counts].concat()
        });
        tests.call(name, differing(Ok(asking.verdicts().len()), got.map(|a| a.verdicts().len())));
        let listed = due.list.len();
        tests.call(
            name,
            differing((Ok(&due.answer), &due.list[..], &due.work), (shown.as_ref(), &list[..listed], &work)),
        );
        let got = lent::question(&record, &tables, &mut list, &mut work[1..]);
        tests.call(name, differing(Err(Refusal::ShortWork), got));
        let mut unsound = record;
        unsound.atoms = 65;
        tests.call(name, differing(Err(Refusal::Unsound), lent::settle(&unsound, &tables, 0)));
    }
    tests.require("a case with more explanations than are listed", several);
}

/// The complaints on the setting `s` as `got` has it, atom by atom.
fn settled(settling: &mut Settling, s: u64, got: Result<lent::Settled, Refusal>) -> Complaints {
    let own = settling.settled(s);
    let due = Ok((mask(&own.model, TRUE), mask(&own.model, FALSE), own.rounds(), own.decided()));
    let mut complaints = differing(due, got.map(|a| (a.trues, a.falses, a.rounds, a.decided)));
    for (atom, value) in own.model.iter().enumerate() {
        let value = match *value {
            TRUE => Some(true),
            FALSE => Some(false),
            _ => None,
        };
        complaints.extend(differing(Ok(value), got.map(|a| a.value(atom))));
    }
    complaints.extend(differing(Ok(None), got.map(|a| a.value(64))));
    complaints
}

/// The layers of each case by the safe call: those of the plain call, which are right, and a refusal.
fn layers(tests: &mut Tests, inputs: &[Input]) {
    tests.family("safe calls: layers");
    let mut met = [0, 0];
    for input in inputs {
        let Ok(said) = file::read(&input.bytes) else { continue };
        let held = Held::of(&said);
        let (record, tables) = (record(&said, &held), tables(&held));
        let words = layers_words(&held);
        let name = || input.name.clone();
        tests.call(name, Layering::of(&said).complaint(&words).into_iter().collect());
        met[usize::from(words[0] == 1)] += 1;
        let entries = &words[2..][..words[1].min(64) as usize];
        let due = if words[0] == 1 { (Some(entries), None) } else { (None, Some(entries)) };
        let got = lent::layers(&record, &tables);
        tests.call(name, differing(Ok(due), got.as_ref().map(|a| (a.numbers(), a.ring()))));
        let mut unsound = record;
        unsound.atoms = 65;
        tests.call(name, differing(Err(Refusal::Unsound), lent::layers(&unsound, &tables)));
    }
    tests.require("layered cases and rings", met.iter().all(|n| *n > 20));
}

/// Reports each file by the safe call.
fn reports(tests: &mut Tests, inputs: &[Input]) {
    tests.family("safe calls: report");
    for input in inputs {
        let text = evaluator::answer::answer(&input.bytes).text.into_bytes();
        let mut out = vec![9; text.len() + 3];
        let got = lent::report(&input.bytes, &mut out);
        let due = [text.as_slice(), &[9; 3]].concat();
        tests.call(|| input.name.clone(), differing((Ok(text.len()), due), (got, out.clone())));
        let got = lent::report(&input.bytes, &mut out[..text.len() - 1]);
        tests.call(|| input.name.clone(), differing(Err(Refusal::ShortOutput), got));
    }
}

/// Writes each case by the safe call, refusals too.
fn writes(tests: &mut Tests, inputs: &[Input]) {
    tests.family("safe calls: write");
    let mut long = false;
    for input in inputs {
        let Ok(said) = file::read(&input.bytes) else { continue };
        let held = Held::of(&said);
        let (record, mut tables) = (record(&said, &held), tables(&held));
        let name = || input.name.clone();
        let text = match written(&held.full(), FILE_BYTES) {
            Ok(text) => text.into_bytes(),
            Err(number) => {
                long |= number == 18;
                let got = lent::write(&record, &tables, &mut [9; 4]);
                tests.call(name, differing(Err(Refusal::from_number(number, 0)), got));
                continue;
            }
        };
        let mut out = vec![9; text.len() + 3];
        let got = lent::write(&record, &tables, &mut out);
        tests.call(name, differing((Ok(text.len()), [&text[..], &[9; 3]].concat()), (got, out.clone())));
        let got = lent::write(&record, &tables, &mut out[..text.len() - 1]);
        tests.call(name, differing(Err(Refusal::ShortOutput), got));
        tables.names[0] = b'X';
        tests.call(name, differing(Err(Refusal::Unsound), lent::write(&record, &tables, &mut out)));
    }
    tests.require("a case whose text is too long", long);
}

/// The files of the families of layers: all stored ones, generated ones and those with chains and rings.
pub fn layers_inputs(folder: &Path) -> Vec<Input> {
    let mut inputs: Vec<Input> = all_folders(folder).into_values().flatten().collect();
    inputs.extend(generated(SAMPLES + 400, |seed| !(400..SAMPLES).contains(&seed)));
    inputs
}

/// The files of the safe calls' families.
pub fn inputs(folder: &Path) -> Vec<Input> {
    let mut inputs = stored(folder, "marked");
    inputs.extend(stored(folder, "vectors"));
    inputs.extend(stored(folder, "requests"));
    inputs.extend(generated(400, |s| s % 20 != 0));
    let texts = SAMPLES + SHAPES;
    inputs.extend(generated(texts + TEXTS / 10, |s| s >= texts));
    let refused = |(number, _, bytes)| Input { name: format!("refusal {number}"), bytes, report: None };
    inputs.extend(refused_files().into_iter().map(refused));
    inputs
}

/// All families of the safe calls.
pub fn run(tests: &mut Tests, folder: &Path) {
    let inputs = inputs(folder);
    reads(tests, &inputs);
    names(tests, &inputs);
    cases(tests, &inputs);
    layers(tests, &layers_inputs(folder));
    reports(tests, &inputs);
    writes(tests, &inputs);
}
