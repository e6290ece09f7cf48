//! The driver of the program `load`: how a call is judged.

use crate::bench::{evaluated, Bench, Test};
use crate::check::vector_files;
use crate::compare::{differing, shown};
use crate::drive::{Drive, Judged};
use crate::file::read;
use crate::load::{generated, load_text, Load};
use crate::load_calls::{call, Call, CALLS};
use crate::load_tally::{met, words};
use crate::plain::Operation;
use crate::run::Input;
use crate::vectors::Vector;
use std::path::Path;
use std::time::Duration;

/// The load and the stored answer of the vector in the file `path`; none if it generates nothing, or a text that is longer
/// than its output, which the program has none of.
fn vector(path: &Path) -> Result<Option<(Load, String)>, String> {
    let vector = Vector::load(path).map_err(|fault| format!("{}: {fault}", path.display()))?;
    let Operation::Generate { load, bytes } = vector.operation else { return Ok(None) };
    let is_short = evaluated(|| generated(&load, bytes) == Err(23))?;
    Ok((!is_short).then_some((load, vector.expected)))
}

/// The tests of the vectors under `folder` that the program can answer; there must be one.
fn tests(folder: &Path) -> Result<Vec<Test>, String> {
    let mut found = Vec::new();
    for path in vector_files(folder).map_err(|e| e.to_string())? {
        if vector(&path)?.is_some() {
            found.push(Test::Vector(path));
        }
    }
    (!found.is_empty()).then_some(found).ok_or_else(|| String::from("no loads"))
}

/// The complaint that `text`, written for `load`, which is in range, has not its lines, or that reading it gives anything
/// but a case or a refusal with 12.
fn unlike(load: &Load, text: &[u8]) -> Option<String> {
    let Some(whole) = text.strip_suffix(b"\n") else { return Some(format!("no LF at the end of {}", shown(text))) };
    let lines: Vec<&[u8]> = whole.split(|b| *b == b'\n').collect();
    let count =
        |words: &[&str]| lines.iter().filter(|l| words.iter().any(|w| l.starts_with(w.as_bytes()))).count() as u64;
    let (atoms, clauses) = (count(&["(atom "]), count(&["(true ", "(false ", "(if "]));
    if (atoms, clauses, lines.len() as u64) != (load.atoms, load.clauses, load.atoms + load.clauses + 1) {
        return Some(format!("{atoms} atoms and {clauses} clauses in {} lines for {load:?}", lines.len()));
    }
    if lines.last() != Some(&b"(query a0)".as_slice()) {
        return Some(format!("the last line is {}", shown(lines[lines.len() - 1])));
    }
    let refusal = read(text).err()?;
    let is_due = (refusal.number, refusal.line) == (12, 0);
    (!is_due).then(|| format!("reading it is refused with {} in line {}", refusal.number, refusal.line))
}

/// Runs the program with the arguments of `call`; what it writes must be a load of that size and, byte for byte, what
/// each of `expected` is, given with its source.
fn compared(bench: &Bench, call: &Call, expected: &[(&str, &str)]) -> Result<(), String> {
    let got = bench.output(Input::Arguments(call.arguments()))?;
    let other = expected.iter().find_map(|(source, text)| differing(source, text.as_bytes(), &got));
    let unlike = if call.load.is_in_range() { unlike(&call.load, &got) } else { None };
    unlike.or(other).map_or(Ok(()), Err)
}

/// Runs the load of the vector in the file `path`.
fn stored(bench: &Bench, path: &Path) -> Result<Judged, String> {
    let (load, answer) = vector(path)?.ok_or("no load")?;
    let kept = if answer == "refused 22\n" { String::from("(refused 22 0)\n") } else { answer };
    let own = evaluated(|| load_text(&load))?;
    let call = Call { load, is_padded: false };
    let complaint = compared(bench, &call, &[("stored answer", &kept), ("evaluator", &own)]).err();
    Ok(Judged { met: None, complaint })
}

/// Runs the generated call of `seed`.
fn generated_call(bench: &Bench, seed: u64) -> Result<Judged, String> {
    let call = call(seed);
    let (own, met) = evaluated(|| {
        let own = generated(&call.load, usize::MAX);
        let met = met(&call, &own);
        (own, met)
    })?;
    let own = own.unwrap_or_else(|number| format!("(refused {number} 0)\n"));
    let complaint = compared(bench, &call, &[("evaluator", &own)]).err();
    Ok(Judged { met: Some(met), complaint: complaint.map(|c| format!("{}: {c}", call.arguments().join(" "))) })
}

/// Runs `program` on the loads of the vectors under `folders` and on the generated calls, each for at most `limit`;
/// answers whether all passed.
pub fn check(program: &Path, folders: &[&Path], limit: Duration) -> bool {
    let seeds = (0..CALLS).collect();
    let drive = Drive { tests, stored, generated: generated_call, seeds, of: "calls", words: words().collect() };
    drive.check(program, folders, limit)
}
