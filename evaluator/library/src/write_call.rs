//! One call of writing with lent memory, compared whole with what is due.
//!
//! | name | meaning |
//! |---|---|
//! | `WRITE_WORDS` | how many words writing answers |
//! | `Page`, `PAGE` | how many bytes of output and words of answer are lent; as many as every text takes |
//! | `WriteDue` | the number, the answer's words and the text; empty where nothing is touched |
//! | `write` | makes the call and gives the complaints |
//! | `as_due` | the same, with what the evaluator finds due |

use crate::calls::{other_number, LentCase};
use crate::held::{Held, RECORD_WORDS};
use crate::lent::Lent;
use crate::tests::Complaints;
use causes::raw;
use evaluator::file::FILE_BYTES;
use evaluator::writing::written;

/// The words of writing's answer: the length of the text.
pub const WRITE_WORDS: usize = 1;

/// The memory lent to writing: bytes of the output, words of the answer.
#[derive(Clone, Copy, Debug)]
pub struct Page {
    pub out: usize,
    pub answer: usize,
}

/// An output that every text fits into.
pub const PAGE: Page = Page { out: FILE_BYTES, answer: WRITE_WORDS };

impl Page {
    /// An output of `out` bytes, with an answer of its words.
    pub fn of(out: usize) -> Page {
        Page { out, answer: WRITE_WORDS }
    }
}

/// What writing should answer and put to the output.
#[derive(Clone)]
pub struct WriteDue {
    pub refusal: u32,
    pub answer: Vec<u64>,
    pub text: Vec<u8>,
}

impl WriteDue {
    /// The text `text`.
    pub fn text(text: &str) -> WriteDue {
        WriteDue { refusal: 0, answer: vec![text.len() as u64], text: text.as_bytes().to_vec() }
    }

    /// The refusal `number`: length 0, and the output is not touched.
    pub fn refused(number: u32) -> WriteDue {
        WriteDue { refusal: number, answer: vec![0; WRITE_WORDS], text: Vec::new() }
    }

    /// 1 for a record or an answer with too few words: nothing is touched.
    pub fn untouched() -> WriteDue {
        WriteDue { refusal: 1, answer: Vec::new(), text: Vec::new() }
    }
}

/// Writes the case of `held` with the memory `page`.
pub fn write(held: &Held, page: Page, due: &WriteDue) -> Complaints {
    let case = LentCase::of(held);
    let (names, prices) = (Lent::holding(&held.names), Lent::holding(&held.prices));
    let (mut out, mut answer) = (Lent::blank(page.out), Lent::blank(page.answer));
    // SAFETY: each pointer comes with the number of entries that its own memory has.
    let got = unsafe {
        raw::causes_write(
            case.record.at(),
            case.record.len(),
            case.clauses.at(),
            case.clauses.len(),
            case.constraints.at(),
            case.constraints.len(),
            case.formula.at(),
            case.formula.len(),
            names.at(),
            names.len(),
            prices.at(),
            prices.len(),
            out.at_mut(),
            out.len(),
            answer.at_mut(),
            answer.len(),
        )
    };
    let own = [
        other_number(due.refusal, got),
        names.complaint("names", &[]),
        prices.complaint("prices", &[]),
        out.complaint("output", &due.text),
        answer.complaint("answer", &due.answer),
    ];
    own.into_iter().chain(case.touched()).flatten().collect()
}

/// What writing `held`, whose tables may be of any sizes, is due with the memory `page`.
pub fn due(held: &Held, page: Page) -> WriteDue {
    if held.record.len() < RECORD_WORDS || page.answer < WRITE_WORDS {
        return WriteDue::untouched();
    }
    written(&held.full(), page.out).map_or_else(WriteDue::refused, |text| WriteDue::text(&text))
}

/// Writes the case of `held` with the memory `page`; the evaluator finds what is due.
pub fn as_due(held: &Held, page: Page) -> Complaints {
    write(held, page, &due(held, page))
}
