//! A family of calls from several threads at once: each gets what it gets alone.

use crate::calls::{layers, question, read, settle, LayersDue, Room, Sizes};
use crate::calls::{ASKED_WORDS, LAYERS_WORDS, SETTLED_WORDS};
use crate::corpus::{generated, Input};
use crate::due::{self, Asking, Layering, Settling};
use crate::generate_call;
use crate::held::Held;
use crate::tests::{Complaints, Tests};
use crate::write_call::{as_due, PAGE};
use evaluator::file;
use evaluator::load::Load;
use std::thread;

/// The threads, and the times that each goes through its files.
const THREADS: usize = 4;
const TURNS: usize = 20;

/// The calls of one file with their complaints.
fn calls(input: &Input) -> Vec<Complaints> {
    let mut found = vec![read(&input.bytes, Sizes::FULL, false, &due::read(&input.bytes))];
    let load = Load { seed: input.bytes.len() as u32, atoms: 11, clauses: 40 };
    found.push(generate_call::as_due(&load, PAGE));
    if let Ok(case) = file::read(&input.bytes) {
        let held = Held::of(&case);
        let due = Settling::of(case.clone()).words(0);
        found.push(settle(&held, 0, SETTLED_WORDS, (0, &due)));
        found.push(as_due(&held, PAGE));
        found.push(layers(&held, LAYERS_WORDS, &LayersDue::Told(&Layering::of(&case))));
        let asking = Asking::of(case);
        let room = Room { list: 2, work: asking.settings(), answer: ASKED_WORDS };
        found.push(question(&held, room, &asking.due(2)));
    }
    found
}

/// Every fourth file of those with few causes for each thread, over and over.
pub fn run(tests: &mut Tests) {
    tests.family("calls from several threads");
    let few = |input: &Input| file::read(&input.bytes).map_or(true, |c| Held::of(&c).record[0] < 6);
    let inputs: Vec<Input> = generated(160, |s| s % 20 != 0).into_iter().filter(few).collect();
    let work = |first: usize| {
        let own: Vec<&Input> = inputs.iter().skip(first).step_by(THREADS).collect();
        (0..TURNS).flat_map(|_| own.iter().flat_map(|i| calls(i))).collect::<Vec<Complaints>>()
    };
    let found: Vec<Vec<Complaints>> = thread::scope(|scope| {
        let running: Vec<_> = (0..THREADS).map(|first| scope.spawn(move || work(first))).collect();
        running.into_iter().map(|thread| thread.join().expect("a thread that ends")).collect()
    });
    for (first, complaints) in found.into_iter().enumerate() {
        for complaint in complaints {
            tests.call(|| format!("thread {first}"), complaint);
        }
    }
}
