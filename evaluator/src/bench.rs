//! One test: a program's run on a stored or generated file, or the evaluator's answer to a vector, compared with what
//! is expected.

use crate::answer::{answer, asked, Answer};
use crate::bodies_tally;
use crate::cheapest_tally;
use crate::compare::{differing, shown, unmeant};
use crate::costs_tally;
use crate::decided_tally;
use crate::editions_tally;
use crate::kinds_tally;
use crate::run::{bad_end, run, Fault, Input};
use crate::sample::sample;
use crate::vectors::Vector;
use std::panic::{catch_unwind, UnwindSafe};
use std::path::{Path, PathBuf};
use std::sync::atomic::{AtomicUsize, Ordering};
use std::time::Duration;

/// After so many runs past the time limit the program is not started again.
const TIMEOUTS: usize = 3;

/// Of so many generated files one is written to the program in two parts.
const HALVED: u64 = 500;

/// A test: a stored file, a vector with the file that gives its operation, or the generated file of a seed.
pub enum Test {
    Stored(PathBuf),
    Vector(PathBuf),
    Generated(u64),
}

/// What a test gave: the evaluator's answer, what is counted of a generated file by its kinds of constraints, by its
/// decided total, by its costs, by its bodies and by its edition, and the complaint if it failed.
pub struct Outcome {
    pub own: Option<Answer>,
    pub met: Option<Vec<bool>>,
    pub complaint: Option<String>,
}

/// What all tests share: the program, its time limit, and the count of runs past that.
pub struct Bench {
    program: PathBuf,
    limit: Duration,
    timeouts: AtomicUsize,
}

impl Test {
    /// The path or the seed.
    pub fn name(&self) -> String {
        match self {
            Test::Stored(path) | Test::Vector(path) => path.display().to_string(),
            Test::Generated(seed) => format!("seed {seed}"),
        }
    }

    /// The tests among which this one is counted: the folder of a file, and of a vector that it calls an operation.
    pub fn group(&self) -> String {
        let folder = |path: &Path| path.parent().unwrap_or(path).display().to_string();
        match self {
            Test::Stored(path) => folder(path),
            Test::Vector(path) => folder(path) + ", operations",
            Test::Generated(_) => String::from("generated"),
        }
    }
}

/// How the program gets the generated file `bytes` of `seed`.
pub fn generated_input(seed: u64, bytes: Vec<u8>) -> Input {
    if seed % HALVED == 2 {
        Input::Halved(bytes)
    } else {
        Input::Piped(bytes)
    }
}

/// What `evaluate` gives, or the complaint that a check within it failed.
pub fn evaluated<T>(evaluate: impl FnOnce() -> T + UnwindSafe) -> Result<T, String> {
    catch_unwind(evaluate).map_err(|_| String::from("the evaluator contradicts itself"))
}

/// Compares the evaluator's answer to the operation in the file `path` with the one that stands beside it.
fn answered(path: &Path) -> Result<Outcome, String> {
    let vector = Vector::load(path)?;
    let own = evaluated(|| vector.answer().text())?;
    Ok(Outcome {
        own: None,
        met: None,
        complaint: differing("stored answer", vector.expected.as_bytes(), own.as_bytes()),
    })
}

impl Bench {
    /// The bench for `program`, each run of which may take `limit`.
    pub fn new(program: &Path, limit: Duration) -> Bench {
        Bench { program: program.to_path_buf(), limit, timeouts: AtomicUsize::new(0) }
    }

    /// The program's standard output on `input`, or the complaint on how it ended.
    pub fn output(&self, input: Input) -> Result<Vec<u8>, String> {
        if self.timeouts.load(Ordering::Relaxed) >= TIMEOUTS {
            return Err(format!("not run after {TIMEOUTS} runs past the time limit"));
        }
        let ran = run(&self.program, input, self.limit).map_err(|fault| match fault {
            Fault::NotStarted(why) => format!("cannot be started: {why}"),
            Fault::NotRead(why) => format!("its output cannot be read: {why}"),
            Fault::TimedOut => {
                self.timeouts.fetch_add(1, Ordering::Relaxed);
                format!("no end within {} s", self.limit.as_secs())
            }
        })?;
        if let Some(end) = bad_end(ran.status) {
            return Err(format!("{end}, standard error {}", shown(&ran.stderr)));
        }
        if !ran.stderr.is_empty() {
            return Err(format!("standard error {}", shown(&ran.stderr)));
        }
        Ok(ran.stdout)
    }

    /// Compares the program's output on `input` with each of `expected`, given with its source.
    pub fn compared(&self, input: Input, expected: &[(&str, &[u8])]) -> Result<(), String> {
        let got = self.output(input)?;
        let complaint = expected.iter().find_map(|(source, bytes)| differing(source, bytes, &got));
        complaint.map_or(Ok(()), Err)
    }

    /// Runs the stored file `path`, beside which its answer stands.
    fn stored(&self, path: &Path) -> Result<Outcome, String> {
        let bytes = std::fs::read(path).map_err(|e| format!("cannot be read: {e}"))?;
        let kept = std::fs::read(path.with_extension("out")).map_err(|e| format!("no stored answer: {e}"))?;
        let own = evaluated(|| answer(&bytes))?;
        let expected = [("stored answer", kept.as_slice()), ("evaluator", own.text.as_bytes())];
        let complaint = self.compared(Input::Stored(path.to_path_buf()), &expected).err();
        Ok(Outcome { own: Some(own), met: None, complaint })
    }

    /// Runs the generated file of `seed`.
    fn generated(&self, seed: u64) -> Result<Outcome, String> {
        let made = sample(seed);
        let (own, met) = evaluated(|| {
            let own = answer(&made.bytes);
            let asked = asked(&made.bytes);
            let met = [
                kinds_tally::met(&made.bytes, &own),
                decided_tally::met(&asked),
                costs_tally::met(&made.bytes, &asked),
                cheapest_tally::met(&asked),
                bodies_tally::met(&made.bytes, &asked),
                editions_tally::met(&made.bytes, &asked),
            ]
            .concat();
            (own, met)
        })?;
        let expected = [("evaluator", own.text.as_bytes())];
        let complaint =
            unmeant(made.due, &own).or_else(|| self.compared(generated_input(seed, made.bytes), &expected).err());
        Ok(Outcome { own: Some(own), met: Some(met), complaint })
    }

    /// Runs `test`.
    pub fn outcome(&self, test: &Test) -> Outcome {
        let outcome = match test {
            Test::Stored(path) => self.stored(path),
            Test::Vector(path) => answered(path),
            Test::Generated(seed) => self.generated(*seed),
        };
        outcome.unwrap_or_else(|complaint| Outcome { own: None, met: None, complaint: Some(complaint) })
    }
}
