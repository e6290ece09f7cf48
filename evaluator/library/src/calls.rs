//! One call of an exported function with lent memory, compared whole with what is due.
//!
//! | name | meaning |
//! |---|---|
//! | `Sizes` | how many entries are lent to reading |
//! | `SETTLED_WORDS`, `ASKED_WORDS`, `LAYERS_WORDS` | how many words settling, the question and the layers answer |
//! | `ROUNDS`, `DECIDED` | where the question answers the rounds and the decided total |
//! | `COST`, `CHEAPEST` | where it answers the lowest cost and the setting that has it |
//! | `ReadDue`, `QuestionDue` | the number, the answer's words and what is written; empty where nothing is touched |
//! | `LayersDue` | the same of the layers, where a ring may be any |
//! | `read`, `settle`, `question`, `layers` | make the call and give the complaints |
//! | `settled_words`, `asked_words`, `layers_words` | make the call and give the words |

use crate::due::Layering;
use crate::held::{Held, ATOMS, CLAUSE_WORDS, CONSTRAINT_WORDS, FORMULA_BYTES, NAMES_BYTES, PRICES};
use crate::held::{QUERIES, RECORD_WORDS};
use crate::lent::{Entry, Lent};
use crate::tests::Complaints;
use causes::raw;

/// The entries lent to reading.
#[derive(Clone, Copy, Debug)]
pub struct Sizes {
    pub clauses: usize,
    pub constraints: usize,
    pub formula: usize,
    pub names: usize,
    pub prices: usize,
    pub answer: usize,
}

impl Sizes {
    /// The sizes of documents 01 and 02, and the words of the answer.
    pub const FULL: Sizes = Sizes {
        clauses: CLAUSE_WORDS,
        constraints: CONSTRAINT_WORDS,
        formula: FORMULA_BYTES,
        names: NAMES_BYTES,
        prices: PRICES,
        answer: 1 + RECORD_WORDS,
    };
}

/// The words of settling's answer: the true atoms, the false atoms, the rounds and the number of decided atoms.
pub const SETTLED_WORDS: usize = 4;

/// The words of the question's answer: the verdicts, m, w, the rounds, the decided total, the lowest cost and the
/// cheapest setting.
pub const ASKED_WORDS: usize = QUERIES + 6;
pub const ROUNDS: usize = QUERIES + 2;
pub const DECIDED: usize = QUERIES + 3;
pub const COST: usize = QUERIES + 4;
pub const CHEAPEST: usize = QUERIES + 5;

/// The words of the layers' answer: whether the case is layered, the number of entries, the entries.
pub const LAYERS_WORDS: usize = 2 + ATOMS;

/// What a reading should answer and leave in the tables, none where they are not touched.
#[derive(Clone, PartialEq)]
pub struct ReadDue {
    pub refusal: u32,
    pub answer: Vec<u64>,
    pub tables: Option<Held>,
}

/// What a question should answer and write to the list and the work area.
#[derive(Clone)]
pub struct QuestionDue {
    pub refusal: u32,
    pub answer: Vec<u64>,
    pub list: Vec<u16>,
    pub work: Vec<u8>,
}

/// What the layers should answer: those of a case, or a refusal's number and zeros, or 1 where nothing is touched.
pub enum LayersDue<'a> {
    Told(&'a Layering),
    Refused(u32),
    Untouched,
}

/// The complaint that the number of a refusal is not the one due.
pub fn other_number(due: u32, got: u32) -> Option<String> {
    (due != got).then(|| format!("expected refusal {due}, got {got}"))
}

/// Memory of `length` entries; with `nowhere` no entries are lent at the null pointer.
fn lent<T: Entry>(length: usize, nowhere: bool) -> Lent<T> {
    if nowhere && length == 0 {
        Lent::nowhere()
    } else {
        Lent::blank(length)
    }
}

/// Reads `file` into memory of the given sizes; with `nowhere` empty memory has the null pointer.
pub fn read(file: &[u8], sizes: Sizes, nowhere: bool, due: &ReadDue) -> Complaints {
    let file = if nowhere && file.is_empty() { Lent::nowhere() } else { Lent::holding(file) };
    let mut clauses = lent(sizes.clauses, nowhere);
    let mut constraints = lent(sizes.constraints, nowhere);
    let mut formula = lent(sizes.formula, nowhere);
    let mut names = lent(sizes.names, nowhere);
    let mut prices = lent(sizes.prices, nowhere);
    let mut answer = lent(sizes.answer, nowhere);
    // SAFETY: each pointer comes with the number of entries that its own memory has.
    let got = unsafe {
        raw::causes_read(
            file.at(),
            file.len(),
            clauses.at_mut(),
            clauses.len(),
            constraints.at_mut(),
            constraints.len(),
            formula.at_mut(),
            formula.len(),
            names.at_mut(),
            names.len(),
            prices.at_mut(),
            prices.len(),
            answer.at_mut(),
            answer.len(),
        )
    };
    let tables = due.tables.as_ref();
    let complaints = [
        other_number(due.refusal, got),
        file.complaint("file", &[]),
        clauses.complaint("clauses", tables.map_or(&[], |t| &t.clauses)),
        constraints.complaint("constraints", tables.map_or(&[], |t| &t.constraints)),
        formula.complaint("formula", tables.map_or(&[], |t| &t.formula)),
        names.complaint("names", tables.map_or(&[], |t| &t.names)),
        prices.complaint("prices", tables.map_or(&[], |t| &t.prices)),
        answer.complaint("answer", &due.answer),
    ];
    complaints.into_iter().flatten().collect()
}

/// The record and the tables lent to settling, the question, the layers or writing.
pub struct LentCase {
    pub record: Lent<u64>,
    pub clauses: Lent<u64>,
    pub constraints: Lent<u64>,
    pub formula: Lent<u8>,
}

impl LentCase {
    /// The record of `held` and those of its tables.
    pub fn of(held: &Held) -> LentCase {
        LentCase {
            record: Lent::holding(&held.record),
            clauses: Lent::holding(&held.clauses),
            constraints: Lent::holding(&held.constraints),
            formula: Lent::holding(&held.formula),
        }
    }

    /// The complaints that some of it was touched.
    pub fn touched(&self) -> [Option<String>; 4] {
        [
            self.record.complaint("record", &[]),
            self.clauses.complaint("clauses", &[]),
            self.constraints.complaint("constraints", &[]),
            self.formula.complaint("formula", &[]),
        ]
    }
}

/// Settles `setting` of `case`; the number answered.
fn call_settle(case: &LentCase, setting: u64, answer: &mut Lent<u64>) -> u32 {
    // SAFETY: each pointer comes with the number of entries that its own memory has.
    unsafe {
        raw::causes_settle(
            case.record.at(),
            case.record.len(),
            case.clauses.at(),
            case.clauses.len(),
            case.constraints.at(),
            case.constraints.len(),
            case.formula.at(),
            case.formula.len(),
            setting,
            answer.at_mut(),
            answer.len(),
        )
    }
}

/// Settles `setting` of `held` with an answer of `words` words; `due` are the number and the words written.
pub fn settle(held: &Held, setting: u64, words: usize, due: (u32, &[u64])) -> Complaints {
    let case = LentCase::of(held);
    let mut answer = Lent::blank(words);
    let got = call_settle(&case, setting, &mut answer);
    let own = [other_number(due.0, got), answer.complaint("answer", due.1)];
    own.into_iter().chain(case.touched()).flatten().collect()
}

/// The words that each of the first `count` settings of `held` is answered with.
pub fn settled_words(held: &Held, count: u64) -> Vec<[u64; SETTLED_WORDS]> {
    let case = LentCase::of(held);
    let words = |setting| {
        let mut answer = Lent::blank(SETTLED_WORDS);
        call_settle(&case, setting, &mut answer);
        answer.lent().try_into().expect("the words lent")
    };
    (0..count).map(words).collect()
}

/// The entries lent to the question: slots of the list, bytes of the work area, words of the answer.
#[derive(Clone, Copy, Debug)]
pub struct Room {
    pub list: usize,
    pub work: usize,
    pub answer: usize,
}

/// Asks the question of `case` with `prices`; the number answered.
fn call_question(
    case: &LentCase,
    prices: &Lent<u32>,
    list: &mut Lent<u16>,
    work: &mut Lent<u8>,
    answer: &mut Lent<u64>,
) -> u32 {
    // SAFETY: each pointer comes with the number of entries that its own memory has.
    unsafe {
        raw::causes_question(
            case.record.at(),
            case.record.len(),
            case.clauses.at(),
            case.clauses.len(),
            case.constraints.at(),
            case.constraints.len(),
            case.formula.at(),
            case.formula.len(),
            prices.at(),
            prices.len(),
            list.at_mut(),
            list.len(),
            work.at_mut(),
            work.len(),
            answer.at_mut(),
            answer.len(),
        )
    }
}

/// Asks the question of `held` with memory of the given sizes; a list without slots has the null pointer.
pub fn question(held: &Held, room: Room, due: &QuestionDue) -> Complaints {
    let case = LentCase::of(held);
    let prices = Lent::holding(&held.prices);
    let mut list = lent(room.list, true);
    let mut work = lent(room.work, false);
    let mut answer = lent(room.answer, false);
    let got = call_question(&case, &prices, &mut list, &mut work, &mut answer);
    let own = [
        other_number(due.refusal, got),
        prices.complaint("prices", &[]),
        list.complaint("list", &due.list),
        work.complaint("work area", &due.work),
        answer.complaint("answer", &due.answer),
    ];
    own.into_iter().chain(case.touched()).flatten().collect()
}

/// The words that the question of `held`, which has `settings` settings, is answered with.
pub fn asked_words(held: &Held, settings: u64) -> Vec<u64> {
    let mut answer = Lent::blank(ASKED_WORDS);
    let (prices, mut work) = (Lent::holding(&held.prices), Lent::blank(settings as usize));
    call_question(&LentCase::of(held), &prices, &mut Lent::blank(0), &mut work, &mut answer);
    answer.lent().to_vec()
}

/// Asks for the layers of `case`; the number answered.
fn call_layers(case: &LentCase, answer: &mut Lent<u64>) -> u32 {
    // SAFETY: each pointer comes with the number of entries that its own memory has.
    unsafe {
        raw::causes_layers(
            case.record.at(),
            case.record.len(),
            case.clauses.at(),
            case.clauses.len(),
            case.constraints.at(),
            case.constraints.len(),
            case.formula.at(),
            case.formula.len(),
            answer.at_mut(),
            answer.len(),
        )
    }
}

/// Asks for the layers of `held` with an answer of `words` words.
pub fn layers(held: &Held, words: usize, due: &LayersDue) -> Complaints {
    let case = LentCase::of(held);
    let mut answer = Lent::blank(words);
    let got = call_layers(&case, &mut answer);
    let own = match due {
        LayersDue::Told(layering) => {
            let told = &answer.lent()[..LAYERS_WORDS.min(words)];
            [other_number(0, got), layering.complaint(told).or_else(|| answer.complaint("answer", told))]
        }
        LayersDue::Refused(number) => [other_number(*number, got), answer.complaint("answer", &[0; LAYERS_WORDS])],
        LayersDue::Untouched => [other_number(1, got), answer.complaint("answer", &[])],
    };
    own.into_iter().chain(case.touched()).flatten().collect()
}

/// The words that the layers of `held` are answered with.
pub fn layers_words(held: &Held) -> Vec<u64> {
    let mut answer = Lent::blank(LAYERS_WORDS);
    call_layers(&LentCase::of(held), &mut answer);
    answer.lent().to_vec()
}
