//! The operations over references and slices, whose lengths go with them.
//!
//! Rust's references are aligned, reach their elements and do not overlap where one of them is written; this is all
//! that the exported functions ask.

use super::tables::{Record, Tables};
use crate::sizes::{ATOMS, QUERIES, RECORD_WORDS};
use crate::{raw, Refusal, Verdict};

/// A settled setting: its least model, its round count and how many atoms are decided.
#[derive(Clone, Copy, Debug, PartialEq, Eq)]
#[non_exhaustive]
pub struct Settled {
    /// The true atoms, bit i for atom i.
    pub trues: u64,
    /// The false atoms, bit i for atom i.
    pub falses: u64,
    /// The round count.
    pub rounds: u64,
    /// The number of decided atoms, that is of true and false ones: the sum of what each round newly decided.
    pub decided: u64,
}

impl Settled {
    /// The value of the atom `atom`, none if it is unknown.
    pub fn value(&self, atom: usize) -> Option<bool> {
        let has = |word: u64| atom < 64 && word >> atom & 1 == 1;
        match (has(self.trues), has(self.falses)) {
            (true, _) => Some(true),
            (_, true) => Some(false),
            _ => None,
        }
    }
}

/// The question's answer.
#[derive(Clone, Copy, Debug, PartialEq, Eq)]
#[non_exhaustive]
pub struct Answer {
    formulas: usize,
    verdicts: [Verdict; QUERIES],
    /// The number of minimal explanations.
    pub minimal: u64,
    /// How many of them the list got.
    pub listed: usize,
    /// The rounds over all settings.
    pub rounds: u64,
    /// The decided atoms over all settings: the sum of what [`Settled::decided`] is for each.
    pub decided: u64,
    /// The lowest cost among all minimal explanations, in cents; 0 if there is none.
    pub cost: u64,
    /// The lowest-numbered minimal setting of that cost, listed or not; 0 if there is none.
    pub cheapest: u64,
}

impl Answer {
    /// The verdict on each formula, in the order of the parts of the formula table.
    pub fn verdicts(&self) -> &[Verdict] {
        &self.verdicts[..self.formulas]
    }
}

/// The layers of a case, or a ring of its rules.
#[derive(Clone, Copy, Debug, PartialEq, Eq)]
#[non_exhaustive]
pub struct Layers {
    is_layered: bool,
    count: usize,
    entries: [u64; ATOMS],
}

impl Layers {
    /// The least number of each atom, in atom order; none if the case isn't layered.
    pub fn numbers(&self) -> Option<&[u64]> {
        self.is_layered.then_some(&self.entries[..self.count])
    }

    /// The atoms of a ring, each named in a body of the one before and the first in a body of the last; none if the
    /// case is layered.
    pub fn ring(&self) -> Option<&[u64]> {
        (!self.is_layered).then_some(&self.entries[..self.count])
    }
}

/// Nothing for the number 0, else the refusal in `line`.
fn accepted(number: u32, line: u64) -> Result<(), Refusal> {
    match number {
        0 => Ok(()),
        _ => Err(Refusal::from_number(number, line)),
    }
}

/// Reads a case file into `tables`. Refuses with 2 to 12, 16, 17, 20 and 21; 2 leaves the tables as they were, the
/// others zero them.
pub fn read(file: &[u8], tables: &mut Tables) -> Result<Record, Refusal> {
    let mut words = [0; 1 + RECORD_WORDS];
    // SAFETY: each pointer comes with the length of its slice, and the tables are borrowed for writing.
    let number = unsafe {
        raw::causes_read(
            file.as_ptr(),
            file.len(),
            tables.clauses.as_mut_ptr(),
            tables.clauses.len(),
            tables.constraints.as_mut_ptr(),
            tables.constraints.len(),
            tables.formula.as_mut_ptr(),
            tables.formula.len(),
            tables.names.as_mut_ptr(),
            tables.names.len(),
            tables.prices.as_mut_ptr(),
            tables.prices.len(),
            words.as_mut_ptr(),
            words.len(),
        )
    };
    let [line, record @ ..] = words;
    accepted(number, line).map(|()| Record::from_words(record))
}

/// Settles the setting `setting` of a case, a number in mixed base: a digit for each cause in atom order, lowest first,
/// below 3 or, for a cause of assumptions alone, below 2. Refuses with 13 and 14.
pub fn settle(record: &Record, tables: &Tables, setting: u64) -> Result<Settled, Refusal> {
    let record = record.words();
    let mut words = [0; 4];
    // SAFETY: each pointer comes with the length of its slice; the answer's words are local.
    let number = unsafe {
        raw::causes_settle(
            record.as_ptr(),
            record.len(),
            tables.clauses.as_ptr(),
            tables.clauses.len(),
            tables.constraints.as_ptr(),
            tables.constraints.len(),
            tables.formula.as_ptr(),
            tables.formula.len(),
            setting,
            words.as_mut_ptr(),
            words.len(),
        )
    };
    let [trues, falses, rounds, decided] = words;
    accepted(number, 0).map(|()| Settled { trues, falses, rounds, decided })
}

/// Answers the question of a case. `list` gets the minimal settings in rising order, as many as it has slots for;
/// byte s of `work` becomes 0 (setting s doesn't explain), 1 (explains, not minimal) or 2 (minimal: no proper subset
/// explains). A setting costs the sum of the prices of the causes for which it adds a fact or an assumption. Refuses
/// with 13 and 15, and then touches neither.
pub fn question(record: &Record, tables: &Tables, list: &mut [u16], work: &mut [u8]) -> Result<Answer, Refusal> {
    let formulas = record.formulas as usize;
    let record = record.words();
    let mut words = [0; QUERIES + 6];
    // SAFETY: each pointer comes with the length of its slice; list and work area are borrowed for writing.
    let number = unsafe {
        raw::causes_question(
            record.as_ptr(),
            record.len(),
            tables.clauses.as_ptr(),
            tables.clauses.len(),
            tables.constraints.as_ptr(),
            tables.constraints.len(),
            tables.formula.as_ptr(),
            tables.formula.len(),
            tables.prices.as_ptr(),
            tables.prices.len(),
            list.as_mut_ptr(),
            list.len(),
            work.as_mut_ptr(),
            work.len(),
            words.as_mut_ptr(),
            words.len(),
        )
    };
    let [verdicts @ .., minimal, listed, rounds, decided, cost, cheapest] = words;
    let verdicts = verdicts.map(|number| Verdict::from_number(number).expect("a verdict of document 01"));
    let listed = listed as usize;
    accepted(number, 0).map(|()| Answer { formulas, verdicts, minimal, listed, rounds, decided, cost, cheapest })
}

/// Numbers the atoms of a case by layers, or finds a ring where it isn't layered. Refuses with 13.
pub fn layers(record: &Record, tables: &Tables) -> Result<Layers, Refusal> {
    let record = record.words();
    let mut words = [0; ATOMS + 2];
    // SAFETY: each pointer comes with the length of its slice; the answer's words are local.
    let number = unsafe {
        raw::causes_layers(
            record.as_ptr(),
            record.len(),
            tables.clauses.as_ptr(),
            tables.clauses.len(),
            tables.constraints.as_ptr(),
            tables.constraints.len(),
            tables.formula.as_ptr(),
            tables.formula.len(),
            words.as_mut_ptr(),
            words.len(),
        )
    };
    let [layered, count, entries @ ..] = words;
    accepted(number, 0).map(|()| Layers { is_layered: layered == 1, count: count as usize, entries })
}

/// Writes a case back as a file to the front of `out` and answers the length of the text: reading it gives the same
/// record and tables in their used entries, if no body has more than [`LITERALS`](crate::sizes::LITERALS) literals. A
/// longer body, which tables of the caller may have, is written too; reading the text is then refused with 20, at the
/// line of the first such body. Refuses with 13 what is no sound case, and one with an atom whose name is none or is
/// there twice or whose price is over 2,000,000; with 18 a line that would be over 200 bytes, or a text over 32,768;
/// with 19 an output that is shorter than the text. Then it doesn't touch the output.
pub fn write(record: &Record, tables: &Tables, out: &mut [u8]) -> Result<usize, Refusal> {
    let record = record.words();
    let mut words = [0; 1];
    // SAFETY: each pointer comes with the length of its slice, and the output is borrowed for writing.
    let number = unsafe {
        raw::causes_write(
            record.as_ptr(),
            record.len(),
            tables.clauses.as_ptr(),
            tables.clauses.len(),
            tables.constraints.as_ptr(),
            tables.constraints.len(),
            tables.formula.as_ptr(),
            tables.formula.len(),
            tables.names.as_ptr(),
            tables.names.len(),
            tables.prices.as_ptr(),
            tables.prices.len(),
            out.as_mut_ptr(),
            out.len(),
            words.as_mut_ptr(),
            words.len(),
        )
    };
    accepted(number, 0).map(|()| words[0] as usize)
}

/// Writes the report of a case file to the front of `out` and answers its length. Refuses with 19 an output that is
/// shorter, and then doesn't touch it.
pub fn report(file: &[u8], out: &mut [u8]) -> Result<usize, Refusal> {
    let mut words = [0; 1];
    // SAFETY: each pointer comes with the length of its slice, and the output is borrowed for writing.
    let number = unsafe {
        raw::causes_report(file.as_ptr(), file.len(), out.as_mut_ptr(), out.len(), words.as_mut_ptr(), words.len())
    };
    accepted(number, 0).map(|()| words[0] as usize)
}

/// Writes the load that follows from `seed` to the front of `out` and answers the length of the text: a case file of
/// `atoms` atoms and `clauses` clauses, the same for the same three numbers wherever it is generated. Reading it is
/// refused with 12 or not at all. Refuses with 22 other numbers than 1 to 64 atoms and at most 256 clauses, with 23 an
/// output that is shorter than the text, and then doesn't touch it;
/// [`LOAD_BYTES`](crate::sizes::LOAD_BYTES) bytes are enough for every load.
pub fn generate(seed: u32, atoms: u64, clauses: u64, out: &mut [u8]) -> Result<usize, Refusal> {
    let mut words = [0; 1];
    // SAFETY: each pointer comes with the length of its slice, and the output is borrowed for writing.
    let number = unsafe {
        raw::causes_generate(seed, atoms, clauses, out.as_mut_ptr(), out.len(), words.as_mut_ptr(), words.len())
    };
    accepted(number, 0).map(|()| words[0] as usize)
}
