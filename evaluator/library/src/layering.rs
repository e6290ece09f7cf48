//! Families of the layers: stored, generated and drawn cases, each with its least numbers or with any of its rings.

use crate::calls::{layers, LayersDue, LAYERS_WORDS};
use crate::corpus::{all_folders, generated, some_accepted, Input};
use crate::drawn::{drawn, rich, small, strewn};
use crate::due::Layering;
use crate::held::Held;
use crate::tests::Tests;
use evaluator::file;
use evaluator::random::Random;
use evaluator::sample::{SAMPLES, SHAPES};
use std::path::Path;

/// The drawn cases.
const DRAWN: u64 = 2_000;

/// What was met: layered cases and their greatest number, cases with a ring, with an atom in its own body, and with
/// longer rings alone.
#[derive(Default)]
struct Met {
    layered: usize,
    greatest: u64,
    rings: usize,
    own: usize,
    longer: usize,
}

impl Met {
    /// Counts what `layering` meets.
    fn count(&mut self, layering: &Layering) {
        let own = layering.dependence.iter().enumerate().any(|(atom, named)| named.contains(&atom));
        let greatest = layering.numbers.iter().flatten().max();
        self.layered += usize::from(greatest.is_some());
        self.greatest = self.greatest.max(greatest.copied().unwrap_or(0));
        self.rings += usize::from(greatest.is_none());
        self.own += usize::from(own);
        self.longer += usize::from(greatest.is_none() && !own);
    }

    /// Fails the family under way unless all was met, numbers up to `greatest` too.
    fn require(&self, tests: &mut Tests, greatest: u64) {
        let each = [self.layered, self.rings, self.own, self.longer];
        tests.require("layered cases, rings, rings of one, longer rings alone", each.iter().all(|n| *n > 20));
        tests.require("great numbers", self.greatest >= greatest);
    }
}

/// The layers of the cases of `inputs`, with garbage past the counts.
fn of_files(tests: &mut Tests, name: &str, inputs: &[Input]) -> Met {
    tests.family(name);
    let mut met = Met::default();
    for (at, input) in inputs.iter().enumerate() {
        let Ok(case) = file::read(&input.bytes) else { continue };
        let held = strewn(&mut Random::new(at as u64), &Held::of(&case));
        let layering = Layering::of(&case);
        met.count(&layering);
        tests.call(|| input.name.clone(), layers(&held, LAYERS_WORDS + at % 3, &LayersDue::Told(&layering)));
    }
    met
}

/// The layers of drawn cases, with zeros and with garbage past the counts.
fn of_drawn(tests: &mut Tests) {
    for (name, garbage) in [("zeros", false), ("garbage", true)] {
        tests.family(&format!("layers: drawn cases, {name} past the counts"));
        let mut met = Met::default();
        for seed in 0..DRAWN {
            let mut random = Random::new(seed);
            let shape = if seed % 2 == 0 { small(&mut random) } else { rich(&mut random) };
            let case = drawn(&mut random, shape);
            let clean = Held::of(&case);
            let held = if garbage { strewn(&mut random, &clean) } else { clean };
            let layering = Layering::of(&case);
            met.count(&layering);
            tests.call(|| format!("seed {seed}"), layers(&held, LAYERS_WORDS, &LayersDue::Told(&layering)));
        }
        met.require(tests, 3);
    }
}

/// All families of the layers.
pub fn run(tests: &mut Tests, folder: &Path) {
    for (name, inputs) in all_folders(folder).into_iter().filter(|(_, inputs)| some_accepted(inputs)) {
        of_files(tests, &format!("layers: stored files, {name}"), &inputs);
    }
    of_files(tests, "layers: generated files", &generated(SAMPLES, |_| true)).require(tests, 50);
    let shapes = generated(SAMPLES + SHAPES, |seed| seed >= SAMPLES);
    of_files(tests, "layers: generated files with chains and rings", &shapes).require(tests, 63);
    of_drawn(tests);
}
