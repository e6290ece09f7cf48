//! The generated pairs of a word and an entry: all short ones of two letters, and drawn ones.

use crate::file::NAME_BYTES;
use crate::lookup::{Outcome, Pair};
use crate::names::drawn_name;
use crate::random::Random;
use std::ops::Range;

/// The most bytes of a short word or entry.
const SHORT_BYTES: usize = 4;

/// The number of drawn pairs; their seeds are the numbers below it.
const DRAWN: u64 = 4_500;

/// The most bytes of a drawn word.
const WORD_BYTES: usize = 32;

/// What is put for other bytes.
const BYTES: [char; 6] = ['a', 'b', 'z', '0', '9', '-'];

/// A pair, and its outcome if the generator knows it.
pub struct Made {
    pub pair: Pair,
    pub due: Option<Outcome>,
}

/// All words of `a` and `b` with at most `SHORT_BYTES` bytes.
fn short_words() -> Vec<String> {
    let word = |length, bits: usize| (0..length).map(|at| if bits >> at & 1 == 0 { 'a' } else { 'b' }).collect();
    (1..=SHORT_BYTES).flat_map(|length| (0..1 << length).map(move |bits| word(length, bits))).collect()
}

/// `name` with another byte at each of `places`.
fn replaced(random: &mut Random, name: &str, places: Range<usize>) -> String {
    let mut other = |old| *random.pick(&BYTES.into_iter().filter(|new| *new != old).collect::<Vec<_>>());
    name.char_indices().map(|(at, old)| if places.contains(&at) { other(old) } else { old }).collect()
}

/// The pair of `seed`: the word is the entry, or differs at the first place, the last, one between or all between, is
/// cut short, is made longer, by any bytes or up to the entry's last one, or has nothing to do with the entry.
fn drawn(seed: u64) -> Made {
    let kind = seed % 9;
    let mut random = Random::new(seed);
    let length = random.between([1, 1, 1, 3, 3, 2, 1, 1, 1][kind as usize], NAME_BYTES);
    let entry = drawn_name(&mut random, length);
    let last = length - 1;
    let (word, due) = match kind {
        0 => (entry.clone(), Some(Outcome::Same)),
        1 => (replaced(&mut random, &entry, 0..1), Some(Outcome::EndsDiffer)),
        2 => (replaced(&mut random, &entry, last..length), Some(Outcome::EndsDiffer)),
        3 => {
            let at = random.between(1, last - 1);
            (replaced(&mut random, &entry, at..at + 1), Some(Outcome::Another))
        }
        4 => (replaced(&mut random, &entry, 1..last), Some(Outcome::Another)),
        5 => (String::from(&entry[..random.between(1, last)]), Some(Outcome::Another)),
        6 | 7 => {
            let end = if kind == 6 { "" } else { &entry[last..] };
            let more = random.between(1, WORD_BYTES - length - end.len());
            (entry.clone() + &drawn_name(&mut random, more) + end, Some(Outcome::EndsDiffer))
        }
        _ => {
            let length = random.between(1, WORD_BYTES);
            (drawn_name(&mut random, length), None)
        }
    };
    Made { pair: Pair { word, entry }, due }
}

/// All generated pairs.
pub fn pairs() -> Vec<Made> {
    let words = short_words();
    let pair = |word: &String, entry: &String| Pair { word: word.clone(), entry: entry.clone() };
    let short = words.iter().flat_map(|word| words.iter().map(move |entry| pair(word, entry)));
    short.map(|pair| Made { pair, due: None }).chain((0..DRAWN).map(drawn)).collect()
}
