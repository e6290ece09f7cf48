//! What the drivers of `layers`, `tidy` and `load` share: tests of a program on what is stored and on what is generated,
//! their failures, what occurred, and the count.

use crate::bench::{Bench, Test};
use crate::check::{by_folder, concluded, files, outcomes};
use crate::row_tally::RowTally;
use std::path::Path;
use std::time::Duration;

/// What a test gave: what is counted of it, if anything is and the evaluator could tell, and the complaint if it failed.
pub struct Judged {
    pub met: Option<Vec<bool>>,
    pub complaint: Option<String>,
}

/// What a driver runs: the tests of what is stored in a folder, how a stored one and the generated one of a seed are
/// judged, the seeds, what generated ones are, and the words of what is counted.
pub struct Drive {
    pub tests: fn(&Path) -> Result<Vec<Test>, String>,
    pub stored: fn(&Bench, &Path) -> Result<Judged, String>,
    pub generated: fn(&Bench, u64) -> Result<Judged, String>,
    pub seeds: Vec<u64>,
    pub of: &'static str,
    pub words: Vec<&'static str>,
}

/// The tests of all case files under `folder`; there must be one.
pub fn case_tests(folder: &Path) -> Result<Vec<Test>, String> {
    let cases = files(folder, "case").map_err(|e| e.to_string())?;
    let tests: Vec<Test> = cases.into_iter().map(Test::Stored).collect();
    (!tests.is_empty()).then_some(tests).ok_or_else(|| String::from("no case files"))
}

impl Drive {
    /// Runs `test`.
    fn judged(&self, bench: &Bench, test: &Test) -> Judged {
        let judged = match test {
            Test::Stored(path) | Test::Vector(path) => (self.stored)(bench, path),
            Test::Generated(seed) => (self.generated)(bench, *seed),
        };
        judged.unwrap_or_else(|complaint| Judged { met: None, complaint: Some(complaint) })
    }

    /// Runs `program` on all that is stored under `folders` and on what is generated, each for at most `limit`; answers
    /// whether all passed.
    pub fn check(self, program: &Path, folders: &[&Path], limit: Duration) -> bool {
        let mut failures = Vec::new();
        let mut tests = Vec::new();
        for folder in folders {
            match (self.tests)(folder) {
                Ok(found) => tests.extend(found),
                Err(fault) => failures.push(format!("{}: {fault}", folder.display())),
            }
        }
        by_folder(&tests).iter().for_each(|line| println!("{line}"));
        tests.extend(self.seeds.iter().copied().map(Test::Generated));
        let bench = Bench::new(program, limit);
        let mut tally = RowTally::new(self.words.clone());
        let mut passed = 0;
        for (test, judged) in tests.iter().zip(outcomes(&tests, |test| self.judged(&bench, test))) {
            judged.met.iter().for_each(|met| tally.count(met));
            match judged.complaint {
                Some(complaint) => failures.push(format!("{}: {complaint}", test.name())),
                None => passed += 1,
            }
        }
        failures.extend(tally.missing().into_iter().map(|what| format!("never occurred: {what}")));
        let lines = [vec![format!("generated: {} {}", self.seeds.len(), self.of)], tally.lines(self.of)].concat();
        concluded(passed, &failures, &lines)
    }
}
