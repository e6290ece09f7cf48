//! Lines of forms written as a file, with spaces, comments and empty lines where the grammar allows them.

use crate::file::LINE_BYTES;
use crate::random::Random;
use crate::tree::tokens;

/// `line` with other spaces: as few as the grammar needs, or some drawn at each place outside a word.
fn respaced(random: &mut Random, line: &str, most: usize) -> String {
    let is_bracket = |t: &str| t == "(" || t == ")";
    let mut text = " ".repeat(random.between(0, most));
    let mut before = String::from("(");
    for token in tokens(line) {
        let needed = !is_bracket(&before) && !is_bracket(&token) && !text.trim().is_empty();
        text.push_str(&" ".repeat(random.between(0, most) + usize::from(needed)));
        text.push_str(&token);
        before = token;
    }
    text + &" ".repeat(random.between(0, most))
}

/// A comment of drawn bytes, now and then as long as other lines may be, or longer.
fn comment(random: &mut Random) -> Vec<u8> {
    let mut bytes = vec![b';'];
    let length = match random.below(20) {
        0 => LINE_BYTES,
        1 => random.between(LINE_BYTES + 1, 4 * LINE_BYTES),
        _ => random.between(1, 40),
    };
    while bytes.len() < length {
        let byte = random.below(256) as u8;
        bytes.push(if byte == b'\n' { b';' } else { byte });
    }
    bytes
}

/// A line that is skipped: a comment, an empty line, or a line of spaces.
fn skipped(random: &mut Random) -> Vec<u8> {
    match random.below(3) {
        0 => Vec::new(),
        1 => vec![b' '; random.between(1, 5)],
        _ => comment(random),
    }
}

/// The lines joined to a file, of which the last may lack its LF.
pub fn joined(lines: &[Vec<u8>], last_ends: bool) -> Vec<u8> {
    let mut bytes = lines.join(&b'\n');
    if last_ends && !lines.is_empty() {
        bytes.push(b'\n');
    }
    bytes
}

/// The file of `lines`, in one of three draws as they stand, else with drawn spaces and skipped lines.
pub fn file(random: &mut Random, lines: &[String]) -> Vec<u8> {
    let odd = random.below(3);
    let mut written = Vec::new();
    for line in lines {
        if odd > 0 && random.chance(15) {
            written.push(skipped(random));
        }
        let most = if random.chance(50) { 0 } else { 3 };
        let other = if odd > 0 { respaced(random, line, most) } else { line.clone() };
        written.push(if other.len() <= LINE_BYTES { other } else { line.clone() }.into_bytes());
    }
    let last_ends = random.chance(80);
    joined(&written, last_ends)
}
