//! Complaints: what was expected, what was got.

use crate::answer::Answer;
use crate::sample::Due;

/// The most characters of an output that a complaint shows.
const SHOWN: usize = 160;

/// `bytes` as text on one line, cut where it is long.
pub fn shown(bytes: &[u8]) -> String {
    let text = String::from_utf8_lossy(bytes);
    let cut: String = text.chars().take(SHOWN).collect();
    let more = if cut.len() < text.len() { format!(".. ({} bytes)", bytes.len()) } else { String::new() };
    format!("{cut:?}{more}")
}

/// The complaint that `got` is not what `source` expects, none if it is.
pub fn differing(source: &str, expected: &[u8], got: &[u8]) -> Option<String> {
    if expected == got {
        return None;
    }
    let at = expected.iter().zip(got).take_while(|(a, b)| a == b).count();
    Some(format!("{source}: expected {}, got {}, first difference at byte {at}", shown(expected), shown(got)))
}

/// The complaint that `answer` is not what the generator meant, none if it is.
pub fn unmeant(due: Due, answer: &Answer) -> Option<String> {
    let number = answer.result.as_ref().err().map(|refusal| refusal.number);
    let meant = match due {
        Due::Unknown => number,
        Due::Read => None,
        Due::Refused(due) => Some(due),
    };
    if number == meant {
        return None;
    }
    let meant = meant.map_or(String::from("none"), |n| n.to_string());
    Some(format!("generator: meant refusal {meant}, evaluator answers {}", shown(answer.text.as_bytes())))
}
