//! The driver: all tests of a program, their failures, what occurred, and the count.

use crate::bench::{Bench, Test};
use crate::bodies_tally;
use crate::cheapest_tally;
use crate::costs_tally;
use crate::decided_tally;
use crate::editions_tally;
use crate::kinds_tally;
use crate::row_tally::RowTally;
use crate::sample::{bodies, editions, loads, sample, BODIES, LOADS, OVERRIDES, SAMPLES};
use crate::tally::Tally;
use std::collections::BTreeMap;
use std::path::{Path, PathBuf};
use std::sync::atomic::{AtomicUsize, Ordering};
use std::sync::Mutex;
use std::thread;
use std::time::Duration;

/// The threads that run tests.
const THREADS: usize = 2;

/// The files under `folder` and its folders with the extension `extension`, sorted by path.
pub fn files(folder: &Path, extension: &str) -> std::io::Result<Vec<PathBuf>> {
    let mut found = Vec::new();
    for entry in std::fs::read_dir(folder)? {
        let path = entry?.path();
        if path.is_dir() {
            found.extend(files(&path, extension)?);
        } else if path.extension().is_some_and(|e| e == extension) {
            found.push(path);
        }
    }
    found.sort();
    Ok(found)
}

/// The case files under `folder` and its folders that have their report beside them, sorted by path.
pub fn case_files(folder: &Path) -> std::io::Result<Vec<PathBuf>> {
    let all = files(folder, "case")?;
    Ok(all.into_iter().filter(|path| !path.with_extension("args").exists()).collect())
}

/// The files under `folder` and its folders that give the operation of a vector, sorted by path.
pub fn vector_files(folder: &Path) -> std::io::Result<Vec<PathBuf>> {
    files(folder, "args")
}

/// What `outcome` gives for each of `tests`, in their order.
pub fn outcomes<O: Send>(tests: &[Test], outcome: impl Fn(&Test) -> O + Sync) -> Vec<O> {
    let next = AtomicUsize::new(0);
    let done = Mutex::new(Vec::new());
    thread::scope(|scope| {
        for _ in 0..THREADS {
            scope.spawn(|| loop {
                let at = next.fetch_add(1, Ordering::Relaxed);
                let Some(test) = tests.get(at) else { break };
                let one = outcome(test);
                done.lock().unwrap().push((at, one));
            });
        }
    });
    let mut done = done.into_inner().unwrap();
    done.sort_by_key(|(at, _)| *at);
    done.into_iter().map(|(_, outcome)| outcome).collect()
}

/// The counts of a run: tests that passed, settings settled, settings in which every model was gone through.
#[derive(Default)]
struct Counts {
    passed: usize,
    settings: usize,
    searched: usize,
}

/// The tests of the files under `folders`; a folder without a case file is a failure.
fn stored_tests(folders: &[&Path], failures: &mut Vec<String>) -> Vec<Test> {
    let mut tests = Vec::new();
    for folder in folders {
        match case_files(folder).and_then(|cases| Ok((cases, vector_files(folder)?))) {
            Ok((cases, _)) if cases.is_empty() => failures.push(format!("{}: no case files", folder.display())),
            Ok((cases, vectors)) => {
                tests.extend(cases.into_iter().map(Test::Stored));
                tests.extend(vectors.into_iter().map(Test::Vector));
            }
            Err(e) => failures.push(format!("{}: {e}", folder.display())),
        }
    }
    tests
}

/// A line for each folder of the files of `tests`, and each kind of them, with their number.
pub fn by_folder<'a>(tests: impl IntoIterator<Item = &'a Test>) -> Vec<String> {
    let mut counts: BTreeMap<String, usize> = BTreeMap::new();
    for test in tests {
        *counts.entry(test.group()).or_insert(0) += 1;
    }
    counts.into_iter().map(|(group, count)| format!("{group}: {count} stored files")).collect()
}

/// Shows `failures`, then `lines`, and the count of tests last; answers whether all passed.
pub fn concluded(passed: usize, failures: &[String], lines: &[String]) -> bool {
    failures.iter().for_each(|failure| println!("failed {failure}"));
    lines.iter().for_each(|line| println!("{line}"));
    println!("{passed} passed, {} failed", failures.len());
    failures.is_empty() && passed > 0
}

/// Runs `program` on the case files under `folders` and on the generated files, each for at most `limit`; answers
/// whether all passed.
pub fn check(program: &Path, folders: &[&Path], limit: Duration) -> bool {
    let mut failures = Vec::new();
    let mut tests = stored_tests(folders, &mut failures);
    for line in by_folder(&tests) {
        println!("{line}");
    }
    tests.extend((0..SAMPLES).chain(bodies()).chain(editions()).chain(loads()).map(Test::Generated));
    let mut tally = Tally::default();
    let costs = costs_tally::words().chain(cheapest_tally::words());
    let others = kinds_tally::words().chain(decided_tally::words()).chain(costs);
    let mut rows = RowTally::new(others.chain(bodies_tally::words()).chain(editions_tally::words()));
    let mut counts = Counts::default();
    let bench = Bench::new(program, limit);
    for (test, outcome) in tests.iter().zip(outcomes(&tests, |test| bench.outcome(test))) {
        outcome.met.iter().for_each(|met| rows.count(met));
        if let Some(own) = &outcome.own {
            counts.settings += own.settings;
            counts.searched += own.searched;
            if let Test::Generated(seed) = test {
                tally.count(&sample(*seed).bytes, own);
            }
        }
        match outcome.complaint {
            Some(complaint) => failures.push(format!("{}: {complaint}", test.name())),
            None => counts.passed += 1,
        }
    }
    let missing = tally.missing().into_iter().chain(rows.missing().into_iter().map(String::from));
    failures.extend(missing.map(|what| format!("never occurred: {what}")));
    let mut lines = vec![
        format!("generated: {} files; {}", SAMPLES + BODIES + OVERRIDES + LOADS, tally.summary()),
        format!("every model gone through: {} settings of {}", counts.searched, counts.settings),
    ];
    lines.extend(rows.lines("files"));
    concluded(counts.passed, &failures, &lines)
}
