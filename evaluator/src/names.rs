//! Names for generated files: plain ones, ones spelled like a form's word, long ones, ones that share their ends.

use crate::file::NAME_BYTES;
use crate::random::Random;

/// Words of the file's forms, which are lawful names.
const FORM_WORDS: [&str; 14] =
    ["atom", "true", "false", "if", "never", "avoid", "seen", "query", "cost", "not", "and", "or", "then", "same"];

/// Names as an engineer would give them.
const PLAIN: [&str; 12] = [
    "low",
    "shut",
    "stopped",
    "fan-reversed",
    "door-open",
    "damper1-shut",
    "ab1",
    "ab2",
    "flow",
    "p-high",
    "filter",
    "leak",
];

/// A name of `length` bytes, of drawn letters, digits and dashes.
pub fn drawn_name(random: &mut Random, length: usize) -> String {
    let mut name = String::from(*random.pick(&['a', 'b', 'n', 'x', 'z']));
    for _ in 1..length {
        name.push(*random.pick(&['a', 'b', 'q', 'z', '0', '9', '-']));
    }
    name
}

/// One name of a drawn kind.
fn name(random: &mut Random) -> String {
    match random.below(6) {
        0 => random.pick(&FORM_WORDS).to_string(),
        1 | 2 => random.pick(&PLAIN).to_string(),
        3 => "a".repeat(random.between(1, NAME_BYTES)),
        4 => {
            let length = random.between(NAME_BYTES - 1, NAME_BYTES);
            drawn_name(random, length)
        }
        _ => {
            let length = random.between(1, 4);
            drawn_name(random, length)
        }
    }
}

/// `count` different names, in two of three draws short numbered ones only.
pub fn names(random: &mut Random, count: usize) -> Vec<String> {
    let mut found: Vec<String> = Vec::new();
    let numbered = random.below(3) > 0;
    while found.len() < count {
        let next = if numbered || random.chance(20) { format!("n{}", found.len()) } else { name(random) };
        if !found.contains(&next) {
            found.push(next);
        }
    }
    found
}
