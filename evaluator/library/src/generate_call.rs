//! One call of generating with lent memory, compared whole with what is due. A page and what is due are those of writing:
//! an output, and an answer of one word, the length of the text.
//!
//! | name | meaning |
//! |---|---|
//! | `generate` | makes the call and gives the complaints |
//! | `due`, `as_due` | what the evaluator finds due; the call with that |
//! | `generated_text` | makes the call and gives the text |

use crate::calls::other_number;
use crate::lent::Lent;
use crate::tests::Complaints;
use crate::write_call::{Page, WriteDue, WRITE_WORDS};
use causes::raw;
use evaluator::load::{generated, Load};

/// Generates `load`; the number answered.
fn call(load: &Load, out: &mut Lent<u8>, answer: &mut Lent<u64>) -> u32 {
    let Load { seed, atoms, clauses } = *load;
    // SAFETY: each pointer comes with the number of entries that its own memory has.
    unsafe { raw::causes_generate(seed, atoms, clauses, out.at_mut(), out.len(), answer.at_mut(), answer.len()) }
}

/// Generates `load` with the memory `page`; of an even seed an output of no byte has the null pointer.
pub fn generate(load: &Load, page: Page, due: &WriteDue) -> Complaints {
    let is_nowhere = page.out == 0 && load.seed % 2 == 0;
    let mut out = if is_nowhere { Lent::nowhere() } else { Lent::blank(page.out) };
    let mut answer = Lent::blank(page.answer);
    let got = call(load, &mut out, &mut answer);
    let complaints =
        [other_number(due.refusal, got), out.complaint("output", &due.text), answer.complaint("answer", &due.answer)];
    complaints.into_iter().flatten().collect()
}

/// What generating `load` is due with the memory `page`.
pub fn due(load: &Load, page: Page) -> WriteDue {
    if page.answer < WRITE_WORDS {
        return WriteDue::untouched();
    }
    generated(load, page.out).map_or_else(WriteDue::refused, |text| WriteDue::text(&text))
}

/// Generates `load` with the memory `page`; the evaluator finds what is due.
pub fn as_due(load: &Load, page: Page) -> Complaints {
    generate(load, page, &due(load, page))
}

/// The text that the library writes for `load` to an output of `bytes` bytes, or the number of the refusal.
pub fn generated_text(load: &Load, bytes: usize) -> Result<Vec<u8>, u32> {
    let (mut out, mut answer) = (Lent::blank(bytes), Lent::blank(WRITE_WORDS));
    let number = call(load, &mut out, &mut answer);
    let length = bytes.min(answer.lent()[0] as usize);
    (number == 0).then(|| out.lent()[..length].to_vec()).ok_or(number)
}
