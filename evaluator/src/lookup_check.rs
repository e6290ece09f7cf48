//! The driver of the program `compare`: its tests, their failures, what occurred, and the count.

use crate::bench::{Bench, Test};
use crate::check::{by_folder, concluded, vector_files};
use crate::compare::differing;
use crate::lookup::Pair;
use crate::lookup_pairs::{pairs, Made};
use crate::lookup_tally::rows;
use crate::plain::Operation;
use crate::run::Input;
use crate::vectors::Vector;
use std::path::Path;
use std::time::Duration;

/// The most generated pairs of one run.
const RUN: usize = 100;

/// A vector that compares a word with an entry: its test, the pair, and the stored answer.
struct Stored {
    test: Test,
    pair: Pair,
    answer: String,
}

/// The vectors under `folder` that compare a word with an entry; there must be one.
fn stored(folder: &Path) -> Result<Vec<Stored>, String> {
    let mut found = Vec::new();
    for path in vector_files(folder).map_err(|e| e.to_string())? {
        let vector = Vector::load(&path).map_err(|fault| format!("{}: {fault}", path.display()))?;
        if let Operation::Compare(pair) = vector.operation {
            found.push(Stored { test: Test::Vector(path), pair, answer: vector.expected });
        }
    }
    (!found.is_empty()).then_some(found).ok_or_else(|| String::from("no words with entries"))
}

impl Stored {
    /// Runs the program on the pair; the complaint if it does not write the stored answer, or not the evaluator's.
    fn complaint(&self, bench: &Bench) -> Option<String> {
        let own = self.pair.outcome().line();
        let expected = [("stored answer", self.answer.as_bytes()), ("evaluator", own.as_bytes())];
        bench.compared(arguments([&self.pair]), &expected).err()
    }
}

/// The arguments that give the program `pairs`.
fn arguments<'a>(pairs: impl IntoIterator<Item = &'a Pair>) -> Input {
    Input::Arguments(pairs.into_iter().flat_map(|pair| [pair.word.clone(), pair.entry.clone()]).collect())
}

/// Runs the program on `made`; for each pair the complaint if its line is not the evaluator's, or the evaluator's
/// outcome not the one that the generator knows.
fn complaints(bench: &Bench, made: &[Made]) -> Vec<Option<String>> {
    let output = bench.output(arguments(made.iter().map(|m| &m.pair)));
    let lines = output.as_ref().map(|text| text.split_inclusive(|b| *b == b'\n').collect::<Vec<_>>());
    let complaint = |(at, Made { pair, due }): (usize, &Made)| match &lines {
        Err(fault) => Some(fault.to_string()),
        Ok(lines) if lines.len() != made.len() => Some(format!("{} lines for {} pairs", lines.len(), made.len())),
        Ok(lines) => {
            let own = pair.outcome().line().as_bytes();
            let meant = due.and_then(|due| differing("generator", due.line().as_bytes(), own));
            meant.or_else(|| differing("evaluator", own, lines[at]))
        }
    };
    made.iter().enumerate().map(complaint).collect()
}

/// Runs `program` on the pairs of the vectors under `folders` and on the generated ones, each time for at most `limit`;
/// answers whether all passed.
pub fn check(program: &Path, folders: &[&Path], limit: Duration) -> bool {
    let bench = Bench::new(program, limit);
    let mut failures = Vec::new();
    let mut vectors = Vec::new();
    for folder in folders {
        match stored(folder) {
            Ok(found) => vectors.extend(found),
            Err(fault) => failures.push(format!("{}: {fault}", folder.display())),
        }
    }
    by_folder(vectors.iter().map(|vector| &vector.test)).iter().for_each(|line| println!("{line}"));
    let made = pairs();
    let mut outcomes: Vec<_> = vectors.iter().map(|vector| (vector.test.name(), vector.complaint(&bench))).collect();
    for run in made.chunks(RUN) {
        let names = run.iter().map(|Made { pair, .. }| format!("{} against {}", pair.word, pair.entry));
        outcomes.extend(names.zip(complaints(&bench, run)));
    }
    let passed = outcomes.iter().filter(|(_, complaint)| complaint.is_none()).count();
    failures.extend(outcomes.into_iter().filter_map(|(name, complaint)| Some(format!("{name}: {}", complaint?))));
    let rows = rows(&made);
    let missing = rows.iter().filter(|(_, count)| *count == 0);
    failures.extend(missing.map(|(what, _)| format!("never occurred: {what}")));
    let mut lines = vec![format!("generated: {} pairs", made.len())];
    lines.extend(rows.iter().map(|(what, count)| format!("{what}: {count} pairs")));
    concluded(passed, &failures, &lines)
}
