//! The driver of the program `layers`: how a file is judged.

use crate::bench::{evaluated, generated_input, Bench};
use crate::compare::shown;
use crate::drive::{case_tests, Drive, Judged};
use crate::file::Refusal;
use crate::layers_answer::{layering, told, Layering};
use crate::layers_tally::{met, words};
use crate::plain::Operation;
use crate::run::Input;
use crate::sample::{bodies, editions, loads, sample, shape, SAMPLES, SHAPES};
use crate::vectors::Vector;
use std::path::Path;
use std::time::Duration;

/// What the file `bytes` should get, and what is counted of it.
fn judged(bytes: &[u8]) -> Result<(Result<Layering, Refusal>, Vec<bool>), String> {
    evaluated(|| {
        let own = layering(bytes);
        let met = met(&own);
        (own, met)
    })
}

/// Runs the program on `input`; what it writes must be right where `own` is what the file should get, and be allowed by
/// `vector`.
fn compared(bench: &Bench, input: Input, own: &Result<Layering, Refusal>, vector: Option<&Vector>) -> Option<String> {
    let judge = |text: Vec<u8>| {
        let answer = told(own, &text)?;
        let is_stored = vector.is_none_or(|v| v.allows(&answer.text()));
        is_stored.then_some(()).ok_or_else(|| format!("not among the stored answers: {}", shown(&text)))
    };
    bench.output(input).and_then(judge).err()
}

/// Runs the stored file `path`.
fn stored(bench: &Bench, path: &Path) -> Result<Judged, String> {
    let bytes = std::fs::read(path).map_err(|e| format!("cannot be read: {e}"))?;
    let vector = Vector::beside(path)?.filter(|v| matches!(v.operation, Operation::Layers));
    let (own, met) = judged(&bytes)?;
    let complaint = compared(bench, Input::Stored(path.to_path_buf()), &own, vector.as_ref());
    Ok(Judged { met: Some(met), complaint })
}

/// Runs the generated file of `seed`; of those past the samples the generator knows whether they have a ring.
fn generated(bench: &Bench, seed: u64) -> Result<Judged, String> {
    let bytes = sample(seed).bytes;
    let (own, met) = judged(&bytes)?;
    let meant = shape(seed).map(|shaped| shaped.has_ring);
    let found = own.as_ref().ok().map(|l| l.numbers.is_none());
    let unmeant = meant.filter(|_| meant != found).map(|ring| format!("generator: a ring was put in: {ring}"));
    let complaint = unmeant.or_else(|| compared(bench, generated_input(seed, bytes), &own, None));
    Ok(Judged { met: Some(met), complaint })
}

/// Runs `program` on all case files under `folders` and on the generated files, each for at most `limit`; answers
/// whether all passed.
pub fn check(program: &Path, folders: &[&Path], limit: Duration) -> bool {
    let seeds = (0..SAMPLES + SHAPES).chain(bodies()).chain(editions()).chain(loads()).collect();
    let words = words().collect();
    let drive = Drive { tests: case_tests, stored, generated, seeds, of: "files", words };
    drive.check(program, folders, limit)
}
