//! How many pairs have each outcome, and how many would have another under a wrong reading of the rule.

use crate::file::NAME_BYTES;
use crate::lookup::{ends_differ, told, Outcome, Pair};
use crate::lookup_pairs::Made;

/// A wrong reading: how its pairs are called, and the outcome that it gives a word and an entry.
type Misreading = (&'static str, fn(&[u8], &[u8]) -> Outcome);

/// The wrong readings.
const MISREADINGS: [Misreading; 10] = [
    ("other with place 15 as the last", |w, e| by_last(w, e, e.get(NAME_BYTES - 1))),
    ("other with place 15 for those past it", |w, e| by_last(w, e, e.get((w.len() - 1).min(NAME_BYTES - 1)))),
    ("other with places modulo 16", |w, e| by_last(w, e, e.get((w.len() - 1) % NAME_BYTES))),
    ("other with the entry's own last place", |w, e| by_last(w, e, e.last())),
    ("other with the first place only", |w, e| by_last(w, e, w.last())),
    ("other with the last place only", |w, e| told(w.last() != e.get(w.len() - 1), w == e)),
    ("other with the ends only", |w, e| told(ends_differ(w, e), true)),
    ("other with a beginning as the entry", |w, e| told(ends_differ(w, e), e.starts_with(w))),
    ("other with lengths as ends", |w, e| told(w.len() != e.len() || ends_differ(w, e), w == e)),
    ("other with a word's first 16 bytes only", |w, e| {
        let front = &w[..w.len().min(NAME_BYTES)];
        told(ends_differ(front, e), front == e)
    }),
];

/// The outcome where the last byte of `word` is held to `met`, its first to that of `entry`.
fn by_last(word: &[u8], entry: &[u8], met: Option<&u8>) -> Outcome {
    told(word[0] != entry[0] || word.last() != met, word == entry)
}

/// Everything that is counted, each with its number of pairs among `made`; each must occur.
pub fn rows(made: &[Made]) -> Vec<(String, usize)> {
    let count = |holds: &dyn Fn(&Pair) -> bool| made.iter().filter(|m| holds(&m.pair)).count();
    let outcomes = [Outcome::EndsDiffer, Outcome::Another, Outcome::Same]
        .map(|outcome| (String::from(outcome.line().trim_end()), count(&|pair| pair.outcome() == outcome)));
    let is_entry = |pair: &Pair, length| pair.outcome() == Outcome::Same && pair.word.len() == length;
    let lengths =
        (1..=NAME_BYTES).map(|length| (format!("same, length {length}"), count(&|pair| is_entry(pair, length))));
    let misread = MISREADINGS.map(|(what, misread)| {
        let differs = |pair: &Pair| misread(pair.word.as_bytes(), pair.entry.as_bytes()) != pair.outcome();
        (String::from(what), count(&differs))
    });
    outcomes.into_iter().chain(lengths).chain(misread).collect()
}
