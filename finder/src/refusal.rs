//! The words on a refused file: where, what the number means, the line as it stands, and how to mend it.

use crate::mend::mend;
use crate::names;
use causes::Refusal;

/// The most bytes of a line that are shown.
const SHOWN: usize = 200;

/// The words on the file `name` with the bytes `file`, which is refused with `refusal`.
pub fn words(name: &str, file: &[u8], refusal: Refusal) -> String {
    let place = refusal.line().map_or(String::from(name), |line| format!("{name}:{line}"));
    let mut text = format!("finder: {place}: refused with {}: {}.\n", refusal.number(), refusal.meaning());
    if let Some(line) = refusal.line() {
        text += &format!("  line: {}\n", shown(file, line));
    }
    if refusal == Refusal::ManyCauses {
        let causes = names::causes(file);
        text += &listed("causes", &causes.three);
        text += &listed("causes of two choices", &causes.two);
    }
    text + &format!("  mend: {}\n", mend(refusal))
}

/// The line that lists `names`, with how many and `what` they are; nothing where there are none.
fn listed(what: &str, names: &[&str]) -> String {
    match names {
        [] => String::new(),
        _ => format!("  {} {what}: {}\n", names.len(), names.join(" ")),
    }
}

/// The line `line` of `file`, counted from 1, with bytes that don't show written out, cut where it is long.
fn shown(file: &[u8], line: u64) -> String {
    let bytes = file.split(|b| *b == b'\n').nth(line as usize - 1).unwrap_or_default();
    let rest = if bytes.len() > SHOWN { " .." } else { "" };
    bytes.iter().take(SHOWN).map(|b| visible(*b)).collect::<String>() + rest
}

/// The byte `b` as it is, or written out where it doesn't show.
fn visible(b: u8) -> String {
    match b {
        b' '..=b'~' => String::from(char::from(b)),
        _ => b.escape_ascii().to_string(),
    }
}
