//! Comparing a word with an entry of the names table.
//!
//! From: document 02, [4].

/// A word, and the name that an entry holds; neither is empty.
pub struct Pair {
    pub word: String,
    pub entry: String,
}

/// What comparing a word with an entry tells.
#[derive(Clone, Copy, PartialEq)]
pub enum Outcome {
    EndsDiffer,
    Another,
    Same,
}

impl Outcome {
    /// The line that tells this outcome.
    pub fn line(self) -> &'static str {
        match self {
            Outcome::EndsDiffer => "ends differ\n",
            Outcome::Another => "another\n",
            Outcome::Same => "same\n",
        }
    }
}

impl Pair {
    /// What comparing the word with the entry tells.
    pub fn outcome(&self) -> Outcome {
        let (word, entry) = (self.word.as_bytes(), self.entry.as_bytes());
        told(ends_differ(word, entry), word == entry)
    }
}

/// Whether the first or the last byte of `word` is not the byte that the name `entry` has at that place.
pub fn ends_differ(word: &[u8], entry: &[u8]) -> bool {
    [0, word.len() - 1].into_iter().any(|place| word.get(place) != entry.get(place))
}

/// The outcome where the ends differ if `differ`, and the entry is the word if `is_word`.
pub fn told(differ: bool, is_word: bool) -> Outcome {
    match (differ, is_word) {
        (true, _) => Outcome::EndsDiffer,
        (false, false) => Outcome::Another,
        (false, true) => Outcome::Same,
    }
}
