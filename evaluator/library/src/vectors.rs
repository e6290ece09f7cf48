//! Families of those operations in files that the library has: what it answers by the safe calls, and to `generate` by
//! the plain one, in the plain form of the answers beside them; of a ring one of those beside them.
//!
//! From: tests/README.md.

use crate::generate_call::generated_text;
use crate::tests::{differing, Tests};
use causes::lent::{self, Record, Tables};
use causes::Refusal;
use evaluator::check::vector_files;
use evaluator::cost::Cheapest;
use evaluator::file;
use evaluator::held::{self, Held};
use evaluator::load::Load;
use evaluator::plain::{Answered, Operation, Sums};
use evaluator::vectors::{Subject, Vector};
use std::collections::BTreeMap;
use std::path::{Path, PathBuf};

/// A record and tables as the safe calls have them.
struct Lent {
    record: Record,
    tables: Tables,
}

impl Lent {
    /// The record and the tables of `held`.
    fn of(held: &Held) -> Lent {
        let from = &held.record;
        let mut record = Record::default();
        (record.atoms, record.clauses, record.constraints) = (from.atoms, from.clauses, from.constraints);
        (record.formulas, record.plain, record.negated) = (from.formulas, from.plain, from.negated);
        (record.nodes, record.edition) = (from.nodes, from.edition);
        let mut tables = Tables::new();
        tables.clauses.copy_from_slice(&held.clauses);
        tables.constraints.copy_from_slice(&held.constraints);
        tables.formula.copy_from_slice(&held.formulas);
        tables.names.copy_from_slice(&held.names);
        tables.prices.copy_from_slice(&held.prices);
        Lent { record, tables }
    }

    /// What reading `file` gives.
    fn read(file: &[u8]) -> Result<Lent, Refusal> {
        let mut tables = Tables::new();
        lent::read(file, &mut tables).map(|record| Lent { record, tables })
    }

    /// This record and these tables in the evaluator's form.
    fn held(&self) -> Held {
        let Record { atoms, clauses, constraints, formulas, plain, negated, nodes, edition, .. } = self.record;
        Held {
            record: held::Record { atoms, clauses, constraints, formulas, nodes, plain, negated, edition },
            clauses: self.tables.clauses.to_vec(),
            constraints: self.tables.constraints.to_vec(),
            formulas: self.tables.formula.to_vec(),
            names: self.tables.names.to_vec(),
            prices: self.tables.prices.to_vec(),
        }
    }

    /// The answer of settling `setting`.
    fn settled(&self, setting: u64) -> Result<Answered, Refusal> {
        let a = lent::settle(&self.record, &self.tables, setting)?;
        Ok(Answered::Settled { truths: a.trues, falsehoods: a.falses, rounds: a.rounds, decided: a.decided })
    }

    /// The answer of the layers, with the ring told.
    fn layered(&self) -> Result<Answered, Refusal> {
        let a = lent::layers(&self.record, &self.tables)?;
        Ok(match a.ring() {
            Some(ring) => Answered::Rings(vec![ring.iter().map(|atom| *atom as usize).collect()]),
            None => Answered::Layered(a.numbers().unwrap_or_default().to_vec()),
        })
    }

    /// The text written to an output of `bytes` bytes; those behind it are to keep theirs.
    fn written(&self, bytes: usize) -> Result<Answered, Refusal> {
        let mut out = vec![b'?'; bytes];
        let written = lent::write(&self.record, &self.tables, &mut out);
        let length = written.unwrap_or(0);
        assert!(out[length..].iter().all(|byte| *byte == b'?'), "bytes behind the text are touched");
        written.map(|_| Answered::Written(String::from_utf8_lossy(&out[..length]).into_owned()))
    }

    /// The answer of the question, with a list of `slots` slots and a work area of `bytes` bytes.
    fn asked(&self, slots: usize, bytes: usize) -> Result<Answered, Refusal> {
        let (mut list, mut work) = (vec![0; slots], vec![0; bytes]);
        let a = lent::question(&self.record, &self.tables, &mut list, &mut work)?;
        list.truncate(a.listed);
        let verdicts = a.verdicts().iter().map(|verdict| *verdict as u64).collect();
        let cheapest = Cheapest { cost: a.cost, setting: a.cheapest as usize };
        let sums = Sums { rounds: a.rounds, decided: a.decided, cheapest };
        Ok(Answered::Asked { verdicts, minimal: a.minimal as usize, sums, list, work })
    }
}

/// The text of `load` to an output of `bytes` bytes.
fn generated(load: &Load, bytes: usize) -> Answered {
    let text = generated_text(load, bytes).map(|text| String::from_utf8_lossy(&text).into_owned());
    text.map_or_else(Answered::Refused, Answered::Written)
}

/// What the library answers to `vector`, none if it has no such operation.
fn answered(vector: &Vector) -> Option<Answered> {
    if let Operation::Generate { load, bytes } = &vector.operation {
        return Some(generated(load, *bytes));
    }
    let lent = match &vector.subject {
        Subject::Nothing => return None,
        Subject::Tables(held) => Lent::of(held),
        Subject::File(bytes) => match Lent::read(bytes) {
            Ok(lent) => lent,
            Err(refusal) => {
                let line = refusal.line().unwrap_or(0) as usize;
                return Some(Answered::Unread(file::Refusal { number: refusal.number(), line }));
            }
        },
    };
    let answer = match vector.operation {
        Operation::Read => Ok(Answered::Read(lent.held())),
        Operation::Settle { setting } => lent.settled(setting),
        Operation::Question { slots, bytes } => lent.asked(slots, bytes),
        Operation::Layers => lent.layered(),
        Operation::Writeback { bytes } => lent.written(bytes),
        Operation::Compare(_) | Operation::Generate { .. } => return None,
    };
    Some(answer.unwrap_or_else(|refusal| Answered::Refused(refusal.number())))
}

/// The families of the operations under `folder`, one for each folder.
pub fn run(tests: &mut Tests, folder: &Path) {
    let mut folders: BTreeMap<PathBuf, Vec<PathBuf>> = BTreeMap::new();
    for path in vector_files(folder).unwrap_or_default() {
        let parent = path.strip_prefix(folder).ok().and_then(Path::parent).expect("a file in a folder");
        folders.entry(parent.to_path_buf()).or_default().push(path);
    }
    for (name, paths) in folders {
        tests.family(&format!("operations: {}", name.display()));
        for path in paths {
            let complaints = match Vector::load(&path) {
                Ok(vector) => {
                    let Some(answer) = answered(&vector) else { continue };
                    let text = answer.text();
                    if vector.allows(&text) {
                        Vec::new()
                    } else {
                        differing(vector.expected.as_str(), &text)
                    }
                }
                Err(fault) => vec![fault],
            };
            tests.call(|| path.display().to_string(), complaints);
        }
    }
}
