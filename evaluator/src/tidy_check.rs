//! The driver of the program `tidy`: how a file is judged.

use crate::bench::{evaluated, generated_input, Bench};
use crate::compare::differing;
use crate::drive::{case_tests, Drive, Judged};
use crate::plain::Operation;
use crate::run::Input;
use crate::sample::{edged, loads, sample};
use crate::tidy_tally::{met, words, Tidied};
use crate::vectors::Vector;
use crate::writing::{tidied, tidy_text};
use std::path::Path;
use std::time::Duration;

/// What the file `bytes` should get, and what is counted of it.
fn judged(bytes: &[u8]) -> Result<(Tidied, Vec<bool>), String> {
    evaluated(|| {
        let own = tidied(bytes);
        let met = met(bytes, &own);
        (own, met)
    })
}

/// Runs the program on `input`; what it writes must be the text of `own`, the one in `vector` if that has one, and the
/// same again for that text.
fn compared(bench: &Bench, input: Input, own: &Tidied, vector: Option<&Vector>) -> Result<(), String> {
    let due = tidy_text(own);
    let kept = vector.map(|v| v.expected.as_bytes()).filter(|text| text.starts_with(b"("));
    let expected = kept.map(|text| ("stored answer", text)).into_iter().chain([("evaluator", due.as_bytes())]);
    bench.compared(input, &expected.collect::<Vec<_>>())?;
    if own.is_err() {
        return Ok(());
    }
    let again = bench.output(Input::Piped(due.clone().into_bytes()))?;
    differing("the text written before", due.as_bytes(), &again).map_or(Ok(()), Err)
}

/// Runs the stored file `path`.
fn stored(bench: &Bench, path: &Path) -> Result<Judged, String> {
    let bytes = std::fs::read(path).map_err(|e| format!("cannot be read: {e}"))?;
    let vector = Vector::beside(path)?.filter(|v| matches!(v.operation, Operation::Writeback { .. }));
    let (own, met) = judged(&bytes)?;
    let complaint = compared(bench, Input::Stored(path.to_path_buf()), &own, vector.as_ref()).err();
    Ok(Judged { met: Some(met), complaint })
}

/// Runs the generated file of `seed`; of those whose text stands at a limit the generator knows whether it passes it.
fn generated(bench: &Bench, seed: u64) -> Result<Judged, String> {
    let bytes = sample(seed).bytes;
    let (own, met) = judged(&bytes)?;
    let due = edged(seed).map(|edged| if edged.is_past { Some(18) } else { None });
    let number = own.as_ref().err().map(|refusal| refusal.number);
    let unmeant = due.filter(|due| *due != number).map(|due| format!("generator: meant {due:?}, got {number:?}"));
    let complaint = unmeant.or_else(|| compared(bench, generated_input(seed, bytes), &own, None).err());
    Ok(Judged { met: Some(met), complaint })
}

/// Runs `program` on all case files under `folders` and on the generated files, each for at most `limit`; answers
/// whether all passed.
pub fn check(program: &Path, folders: &[&Path], limit: Duration) -> bool {
    let (seeds, words) = ((0..loads().end).collect(), words().collect());
    let drive = Drive { tests: case_tests, stored, generated, seeds, of: "files", words };
    drive.check(program, folders, limit)
}
