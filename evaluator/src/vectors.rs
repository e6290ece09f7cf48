//! The vectors of document 02's requests that call an operation: `NAME.args` gives it, `NAME.case` or `NAME.tables`
//! what it runs on if it takes a case, `NAME.out` its answer.

use crate::case::Case;
use crate::cause::settings;
use crate::file;
use crate::formula::{FALSE, TRUE};
use crate::held::Held;
use crate::layers::{dependence, numbers, rings};
use crate::load::generated;
use crate::model::mask;
use crate::plain::{tables, Answered, Operation, Sums};
use crate::question::{ask, Engine};
use crate::writing::written;
use std::path::Path;

/// What an operation runs on: a case file that is read first, a record and tables, or its arguments alone.
pub enum Subject {
    File(Vec<u8>),
    Tables(Box<Held>),
    Nothing,
}

/// A vector: an operation, what it runs on, and the text of its answer.
pub struct Vector {
    pub operation: Operation,
    pub subject: Subject,
    pub expected: String,
}

/// What settling the setting `setting` of `case` answers.
fn settled(case: Case, setting: u64) -> Answered {
    if u128::from(setting) >= settings(&case.causes()) {
        return Answered::Refused(14);
    }
    let settled = Engine::new(case).settle_setting(setting as usize);
    let (truths, falsehoods) = (mask(&settled.model, TRUE), mask(&settled.model, FALSE));
    Answered::Settled { truths, falsehoods, rounds: settled.rounds(), decided: settled.decided() }
}

/// What the question on `case` answers with a list of `slots` slots and a work area of `bytes` zeros.
fn asked(case: Case, slots: usize, bytes: usize) -> Answered {
    if (bytes as u128) < settings(&case.causes()) {
        return Answered::Refused(15);
    }
    let found = ask(case);
    let mut work = vec![0; bytes];
    for (byte, explains) in work.iter_mut().zip(&found.explains) {
        *byte = u8::from(*explains);
    }
    for setting in &found.minimal {
        work[*setting] = 2;
    }
    let list = found.minimal.iter().take(slots).map(|s| *s as u16).collect();
    let verdicts = found.verdicts.iter().map(|v| v.number()).collect();
    let sums = Sums { rounds: found.rounds, decided: found.decided, cheapest: found.cheapest };
    Answered::Asked { verdicts, minimal: found.minimal.len(), sums, list, work }
}

/// What the operation `layers` may answer on `case`: the least numbers, or any of all its rings.
fn layers(case: &Case) -> Answered {
    let dependence = dependence(case);
    match numbers(&dependence) {
        Some(numbers) => Answered::Layered(numbers),
        None => Answered::Rings(rings(&dependence)),
    }
}

impl Vector {
    /// The vector whose operation is in the file `path`.
    pub fn load(path: &Path) -> Result<Vector, String> {
        let bytes = |extension| std::fs::read(path.with_extension(extension)).map_err(|e| format!(".{extension}: {e}"));
        let text = |extension| String::from_utf8(bytes(extension)?).map_err(|e| format!(".{extension}: {e}"));
        let operation = Operation::of(&text("args")?)?;
        let given = !matches!(operation, Operation::Read) && path.with_extension("tables").exists();
        let subject = match operation {
            Operation::Compare(_) | Operation::Generate { .. } => Subject::Nothing,
            _ if given => Subject::Tables(Box::new(tables(&text("tables")?)?)),
            _ => Subject::File(bytes("case")?),
        };
        Ok(Vector { operation, subject, expected: text("out")? })
    }

    /// The vector on the case file `path`, if there is one.
    pub fn beside(path: &Path) -> Result<Option<Vector>, String> {
        let arguments = path.with_extension("args");
        arguments.exists().then(|| Vector::load(&arguments)).transpose()
    }

    /// Whether an operation with the answer `text` answers as it should: with the stored answer, or with one ring of
    /// those stored.
    pub fn allows(&self, text: &str) -> bool {
        let ring = text.strip_suffix('\n').filter(|line| line.starts_with("ring "));
        text == self.expected || ring.is_some_and(|ring| self.expected.lines().any(|line| line == ring))
    }

    /// What the operation should answer; all rings, where one of them is to be answered.
    pub fn answer(&self) -> Answered {
        let held = match &self.subject {
            Subject::Tables(held) => Held::clone(held),
            Subject::File(bytes) => match file::read(bytes) {
                Ok(case) => Held::of(&case),
                Err(refusal) => return Answered::Unread(refusal),
            },
            Subject::Nothing => Held::zeros(),
        };
        match (&self.operation, held.case()) {
            (Operation::Compare(pair), _) => Answered::Compared(pair.outcome()),
            (Operation::Generate { load, bytes }, _) => {
                generated(load, *bytes).map_or_else(Answered::Refused, Answered::Written)
            }
            (Operation::Read, _) => Answered::Read(held),
            (Operation::Writeback { bytes }, _) => {
                written(&held, *bytes).map_or_else(Answered::Refused, Answered::Written)
            }
            (_, None) => Answered::Refused(13),
            (Operation::Settle { setting }, Some(case)) => settled(case, *setting),
            (Operation::Question { slots, bytes }, Some(case)) => asked(case, *slots, *bytes),
            (Operation::Layers, Some(case)) => layers(&case),
        }
    }
}
