//! Families of writing: stored, generated and drawn cases, with outputs around the length of the text; the way back, by
//! the library alone.

use crate::corpus::{all_folders, generated, some_accepted, Input, EACH, M4};
use crate::drawn::{drawn, rich, small, strewn, word};
use crate::held::{Held, ATOMS};
use crate::tests::{differing, Complaints, Tests};
use crate::write_call::{as_due, due, write, Page, WriteDue, PAGE, WRITE_WORDS};
use causes::lent::{self, Record, Tables};
use causes::Refusal;
use evaluator::file::{self, FILE_BYTES};
use evaluator::random::Random;
use evaluator::sample::{bodies, SAMPLES, SHAPES, TEXTS};
use std::path::Path;

/// The seeds of the generated files that are written, of those with chains and rings too.
const SEEDS: u64 = 1_000;

/// The text of `EACH`.
pub const EACH_TEXT: &str = "(atom low)
(atom shut)
(atom ab)
(atom fan)
(atom stopped)
(if low shut(not ab))
(false ab)
(true fan)
(never stopped(not fan))
(avoid stopped(not ab))
(seen fan)
(seen(not low))
(query(then(or shut low)(same stopped(not ab))))
(query(not fan))
(cost stopped 1397 0)
";

/// The text of M4.
pub const M4_TEXT: &str = "(atom low)
(atom shut)
(atom ab1)
(atom stopped)
(atom ab2)
(if low shut(not ab1))
(if low stopped(not ab2))
(false ab1)
(false ab2)
(seen low)
(query shut)
";

/// `held` with drawn entries past its counts, in the rows of names past the atoms too.
pub fn strewn_names(random: &mut Random, held: &Held) -> Held {
    let mut other = strewn(random, held);
    let atoms = ATOMS.min(held.record[0] as usize);
    other.names[16 * atoms..].fill_with(|| word(random) as u8);
    other
}

/// Writes `held` to outputs of 0 and 1 bytes and of one byte less to seven more than its text; a refused one to no
/// bytes and to as many as a file has.
pub fn lengths(tests: &mut Tests, name: &str, held: &Held) {
    let whole = due(held, PAGE);
    if whole.refusal != 0 {
        for out in [0, FILE_BYTES] {
            tests.call(|| format!("{name}, {out} bytes"), write(held, Page::of(out), &whole));
        }
        return;
    }
    let length = whole.text.len();
    for out in [0, 1, length - 1] {
        let page = Page { out, answer: WRITE_WORDS + out % 2 };
        tests.call(|| format!("{name}, {page:?}"), write(held, page, &WriteDue::refused(19)));
    }
    for out in [length, length + 1, length + 7] {
        let page = Page { out, answer: WRITE_WORDS + out % 3 };
        tests.call(|| format!("{name}, {page:?}"), write(held, page, &whole));
    }
    let page = Page { out: length, answer: 0 };
    tests.call(|| format!("{name}, {page:?}"), write(held, page, &WriteDue::untouched()));
}

/// Writes the cases of those of `inputs` that the evaluator accepts.
fn files(tests: &mut Tests, name: &str, inputs: &[Input]) {
    tests.family(name);
    for (at, input) in inputs.iter().enumerate() {
        let Ok(case) = file::read(&input.bytes) else { continue };
        lengths(tests, &input.name, &strewn_names(&mut Random::new(at as u64), &Held::of(&case)));
    }
}

/// The text that the library writes of `record` and `tables`.
fn text(record: &Record, tables: &Tables) -> Result<Vec<u8>, Refusal> {
    let mut out = vec![0; FILE_BYTES];
    lent::write(record, tables, &mut out).map(|length| out[..length].to_vec())
}

/// The complaints on the way back of `bytes`, none given if it is refused or has no text: the text is read as the same
/// record and tables, and written again as the same bytes.
pub fn way_back(bytes: &[u8]) -> Option<Complaints> {
    let (mut tables, mut again) = (Tables::new(), Tables::new());
    let record = lent::read(bytes, &mut tables).ok()?;
    let first = text(&record, &tables).ok()?;
    let back = lent::read(&first, &mut again);
    let complaints = differing((Ok(record), &tables), (back, &again));
    Some([complaints, differing(Ok(first), text(&record, &again))].concat())
}

/// The way back of each of `inputs` that has a text.
fn ways_back(tests: &mut Tests, name: &str, inputs: &[Input]) {
    tests.family(name);
    for input in inputs {
        if let Some(complaints) = way_back(&input.bytes) {
            tests.call(|| input.name.clone(), complaints);
        }
    }
}

/// Drawn cases, prices of which are often too high, with garbage past the counts.
fn drawn_cases(tests: &mut Tests) {
    tests.family("write: drawn cases, garbage past the counts");
    let mut met = [0, 0];
    for seed in 0..2_000 {
        let mut random = Random::new(seed);
        let shape = if seed % 2 == 0 { small(&mut random) } else { rich(&mut random) };
        let case = drawn(&mut random, shape);
        let held = strewn_names(&mut random, &Held::of(&case));
        let is_dear = case.prices.iter().any(|price| *price > 2_000_000);
        let number = due(&held, PAGE).refusal;
        tests.require(&format!("seed {seed}: 13 for a price over the limit"), is_dear == (number == 13));
        met[usize::from(is_dear)] += 1;
        lengths(tests, &format!("seed {seed}"), &held);
    }
    tests.require("cases with and without a price over the limit", met.iter().all(|n| *n > 200));
}

/// Texts worked out by hand, with outputs of each length.
fn by_hand(tests: &mut Tests) {
    tests.family("write: outputs of each length, texts by hand");
    for (file, text) in [(EACH, EACH_TEXT), (M4, M4_TEXT)] {
        let held = Held::of(&file::read(file).unwrap_or_else(|r| panic!("refused with {}", r.number)));
        for out in 0..2 * text.len() {
            let due = if out < text.len() { WriteDue::refused(19) } else { WriteDue::text(text) };
            tests.call(|| format!("{out} bytes"), write(&held, Page::of(out), &due));
        }
    }
}

/// All families of writing that take cases as they come.
pub fn run(tests: &mut Tests, folder: &Path) {
    let folders = all_folders(folder).into_iter().filter(|(_, inputs)| some_accepted(inputs));
    for (name, inputs) in folders {
        files(tests, &format!("write: stored files, {name}"), &inputs);
        ways_back(tests, &format!("write: the way back, {name}"), &inputs);
    }
    let seeds = |seed| seed < SEEDS && seed % 20 != 0 || (SAMPLES..SAMPLES + SEEDS).contains(&seed);
    let inputs = generated(SAMPLES + SEEDS, seeds);
    files(tests, "write: generated files", &inputs);
    ways_back(tests, "write: the way back, generated files", &inputs);
    let shapes = SAMPLES + SHAPES;
    let inputs = generated(shapes + TEXTS, |seed| seed >= shapes);
    files(tests, "write: generated files with texts at the limits", &inputs);
    ways_back(tests, "write: the way back, texts at the limits", &inputs);
    let inputs = generated(bodies().end, |seed| bodies().contains(&seed));
    files(tests, "write: generated files with long bodies", &inputs);
    ways_back(tests, "write: the way back, long bodies", &inputs);
    drawn_cases(tests);
    by_hand(tests);
    tests.family("write: files at limits, as the evaluator writes them");
    for input in generated(SAMPLES, |seed| seed % 20 == 0) {
        let Ok(case) = file::read(&input.bytes) else { continue };
        tests.call(|| input.name.clone(), as_due(&Held::of(&case), PAGE));
    }
}
