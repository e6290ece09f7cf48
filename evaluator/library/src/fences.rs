//! Families of calls whose memory begins where a page ends that can't be touched; in all others it ends where one
//! begins.

use crate::calls::{layers, question, read, settle, LayersDue, Room, Sizes};
use crate::calls::{ASKED_WORDS, LAYERS_WORDS, SETTLED_WORDS};
use crate::corpus::{generated, refused_files, stored, Input, EACH, M4};
use crate::drawn::strewn;
use crate::due::{self, Asking, Layering, Settling};
use crate::generating;
use crate::held::Held;
use crate::lent::fenced_in_front;
use crate::reports::lengths;
use crate::tests::Tests;
use crate::writing::{self, strewn_names};
use evaluator::answer::answer;
use evaluator::file;
use evaluator::random::Random;
use std::path::Path;

/// Reads each file, into full tables and with no room for an answer.
fn reads(tests: &mut Tests, inputs: &[Input]) {
    tests.family("a fence in front: read");
    for input in inputs {
        let due = due::read(&input.bytes);
        tests.call(|| input.name.clone(), read(&input.bytes, Sizes::FULL, false, &due));
        let short = Sizes { names: 0, ..Sizes::FULL };
        tests.call(|| format!("{}, no names", input.name), read(&input.bytes, short, false, &due::refused(1, 0)));
    }
}

/// Settles the first and the last setting of each case, asks its question and for its layers.
fn cases(tests: &mut Tests, inputs: &[Input]) {
    tests.family("a fence in front: settle, question, layers");
    for (at, input) in inputs.iter().enumerate() {
        let Ok(case) = file::read(&input.bytes) else { continue };
        let held = strewn(&mut Random::new(at as u64), &Held::of(&case));
        let mut settling = Settling::of(case.clone());
        let last = settling.settings() - 1;
        for s in [0, last] {
            let due = settling.words(s);
            tests.call(|| format!("{}, setting {s}", input.name), settle(&held, s, SETTLED_WORDS, (0, &due)));
        }
        let layering = Layering::of(&case);
        let complaints = layers(&held, LAYERS_WORDS, &LayersDue::Told(&layering));
        tests.call(|| format!("{}, layers", input.name), complaints);
        let asking = Asking::of(case);
        let room = Room { list: 2, work: asking.settings(), answer: ASKED_WORDS };
        tests.call(|| format!("{}, {room:?}", input.name), question(&held, room, &asking.due(2)));
    }
}

/// Reports each file.
fn reports(tests: &mut Tests, inputs: &[Input]) {
    tests.family("a fence in front: report");
    for input in inputs {
        let text = answer(&input.bytes).text.into_bytes();
        lengths(tests, &input.name, &input.bytes, &text);
    }
}

/// Writes each case, with garbage past its counts.
fn writes(tests: &mut Tests, inputs: &[Input]) {
    tests.family("a fence in front: write");
    for (at, input) in inputs.iter().enumerate() {
        let Ok(case) = file::read(&input.bytes) else { continue };
        writing::lengths(tests, &input.name, &strewn_names(&mut Random::new(at as u64), &Held::of(&case)));
    }
}

/// Generates loads of all sizes.
fn generates(tests: &mut Tests) {
    tests.family("a fence in front: generate");
    generating::grid().iter().for_each(|load| generating::lengths(tests, load));
}

/// All families with the fence in front.
pub fn run(tests: &mut Tests, folder: &Path) {
    let made = |bytes: &[u8]| Input { name: String::from("made here"), bytes: bytes.to_vec(), report: None };
    let mut inputs = vec![made(M4), made(EACH)];
    inputs.extend(stored(folder, "marked"));
    inputs.extend(stored(folder, "vectors"));
    inputs.extend(stored(folder, "requests"));
    inputs.extend(generated(200, |s| s % 20 != 0));
    inputs.extend(refused_files().iter().map(|(_, _, file)| made(file)));
    fenced_in_front(|| {
        reads(tests, &inputs);
        cases(tests, &inputs);
        reports(tests, &inputs);
        writes(tests, &inputs);
        generates(tests);
    });
}
