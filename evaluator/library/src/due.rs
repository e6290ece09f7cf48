//! What is due by the evaluator: of a reading, of a settled setting, of a question, of layers.

use crate::calls::{QuestionDue, ReadDue, ASKED_WORDS, LAYERS_WORDS, SETTLED_WORDS};
use crate::held::{padded, Held, ATOMS, QUERIES, RECORD_WORDS};
use evaluator::case::Case;
use evaluator::cause::settings;
use evaluator::file;
use evaluator::formula::{FALSE, TRUE};
use evaluator::layers::{dependence, is_ring, numbers, Dependence};
use evaluator::model::{mask, Settled};
use evaluator::question::{ask, Engine, Findings};
use evaluator::verdict::Verdict;

/// What reading `bytes` is due, with tables and an answer of at least their sizes.
pub fn read(bytes: &[u8]) -> ReadDue {
    match file::read(bytes) {
        Ok(case) => {
            let held = Held::of(&case);
            let answer = [vec![0], held.record.clone()].concat();
            ReadDue { refusal: 0, answer, tables: Some(held) }
        }
        Err(refusal) => refused(refusal.number, refusal.line as u64),
    }
}

/// What a reading refused with `number` at `line` is due: 1 and 2 touch no table.
pub fn refused(number: u32, line: u64) -> ReadDue {
    let tables = (number > 2).then(Held::zeros);
    ReadDue { refusal: number, answer: padded(vec![line], 1 + RECORD_WORDS), tables }
}

/// A case with what is due for its settings.
pub struct Settling {
    engine: Engine,
}

impl Settling {
    /// The settling of `case`.
    pub fn of(case: Case) -> Settling {
        Settling { engine: Engine::new(case) }
    }

    /// The number of settings.
    pub fn settings(&self) -> u64 {
        settings(&self.engine.causes) as u64
    }

    /// What the setting `s` settles to: its least model by atom, and what each round newly decided.
    pub fn settled(&mut self, s: u64) -> Settled {
        self.engine.settle_setting(s as usize)
    }

    /// The true atoms, the false atoms, the rounds and the number of decided atoms of the setting `s`.
    pub fn words(&mut self, s: u64) -> [u64; SETTLED_WORDS] {
        let settled = self.settled(s);
        [mask(&settled.model, TRUE), mask(&settled.model, FALSE), settled.rounds(), settled.decided()]
    }
}

/// A case's answer to the question, before the list's length is known.
pub struct Asking {
    findings: Findings,
}

impl Asking {
    /// The asking of `case`.
    pub fn of(case: Case) -> Asking {
        Asking { findings: ask(case) }
    }

    /// The number of settings.
    pub fn settings(&self) -> usize {
        self.findings.explains.len()
    }

    /// The number of minimal explanations.
    pub fn minimal(&self) -> usize {
        self.findings.minimal.len()
    }

    /// Document 01's numbers of the verdicts, in file order.
    pub fn verdicts(&self) -> Vec<u64> {
        let number = |verdict: &Verdict| match verdict {
            Verdict::Unexplained => 0,
            Verdict::Follows => 1,
            Verdict::Denied => 2,
            Verdict::Open => 3,
        };
        self.findings.verdicts.iter().map(number).collect()
    }

    /// What is due with a list of `slots` slots and a work area that is long enough.
    pub fn due(&self, slots: usize) -> QuestionDue {
        let listed = slots.min(self.minimal());
        let mut work: Vec<u8> = self.findings.explains.iter().map(|e| u8::from(*e)).collect();
        for s in &self.findings.minimal {
            work[*s] = 2;
        }
        let counts = [self.minimal() as u64, listed as u64, self.findings.rounds, self.findings.decided];
        let cheapest = [self.findings.cheapest.cost, self.findings.cheapest.setting as u64];
        QuestionDue {
            refusal: 0,
            answer: padded(self.verdicts(), QUERIES).into_iter().chain(counts).chain(cheapest).collect(),
            list: self.findings.minimal[..listed].iter().map(|s| *s as u16).collect(),
            work,
        }
    }
}

/// What a question refused with `number` is due: zeros as the answer.
pub fn unasked(number: u32) -> QuestionDue {
    QuestionDue { refusal: number, answer: vec![0; ASKED_WORDS], list: Vec::new(), work: Vec::new() }
}

/// What a question with too short a record or answer is due: nothing is touched.
pub fn unanswered() -> QuestionDue {
    QuestionDue { refusal: 1, answer: Vec::new(), list: Vec::new(), work: Vec::new() }
}

/// What depends on what in a case, and its least numbers, none if it isn't layered.
#[derive(Clone)]
pub struct Layering {
    pub dependence: Dependence,
    pub numbers: Option<Vec<u64>>,
}

impl Layering {
    /// The layering of `case`.
    pub fn of(case: &Case) -> Layering {
        let dependence = dependence(case);
        let numbers = numbers(&dependence);
        Layering { dependence, numbers }
    }

    /// The complaint that `atoms` are no ring of a case that isn't layered.
    pub fn ring_complaint(&self, atoms: &[u64]) -> Option<String> {
        let places: Vec<usize> = atoms.iter().map(|atom| *atom as usize).collect();
        let is_told = self.numbers.is_none() && is_ring(&self.dependence, &places);
        (!is_told).then(|| format!("expected {}, got the ring {atoms:?}", self.told()))
    }

    /// The complaint on the words of an answer: they are the numbers, or those of a ring, with zeros behind.
    pub fn complaint(&self, words: &[u64]) -> Option<String> {
        let [layered, count, entries @ ..] = words else { return Some(String::from("no answer")) };
        let is_size = words.len() == LAYERS_WORDS && *count <= ATOMS as u64;
        let (told, behind) = entries.split_at_checked(*count as usize).filter(|_| is_size).unwrap_or_default();
        let complaint = match (layered, &self.numbers) {
            (0, None) => self.ring_complaint(told),
            (1, Some(numbers)) if numbers == told => None,
            _ => Some(format!("expected {}, got {layered} and {told:?}", self.told())),
        };
        let is_zero = behind.iter().all(|word| *word == 0);
        complaint.or_else(|| (!is_zero).then(|| format!("behind {count} entries: expected zeros, got {behind:?}")))
    }

    /// What is due, to be shown.
    fn told(&self) -> String {
        self.numbers.as_ref().map_or(String::from("a ring"), |numbers| format!("the numbers {numbers:?}"))
    }
}
