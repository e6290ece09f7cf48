//! What each refusal means, in the manual's words: the first sentence of its row, or of its place in the paragraph on
//! the numbers that the program never writes.

use std::path::Path;

/// The manual's section on refusals, `root` being the repository.
pub fn section(root: &Path) -> String {
    let manual = std::fs::read_to_string(root.join("docs/MANUAL.md")).expect("the manual");
    let lines = manual.lines().skip_while(|line| !(line.starts_with("## ") && line.ends_with(" Refusals"))).skip(1);
    lines.take_while(|line| !line.starts_with("## ")).map(|line| format!("{line}\n")).collect()
}

/// `sentence` as the library has it: no capital in front, no dot behind.
fn plain(sentence: &str) -> String {
    let mut letters = sentence.trim().trim_end_matches('.').chars();
    let first = letters.next().map(|c| c.to_ascii_lowercase());
    first.into_iter().chain(letters).collect()
}

/// The text in front of the first dot that ends a sentence.
fn first_sentence(text: &str) -> &str {
    text.split_once(". ").map_or(text, |(first, _)| first)
}

/// The meaning of the refusal `number` in `section`, none if it has none.
pub fn meaning(section: &str, number: u32) -> Option<String> {
    let row = section.lines().find_map(|line| line.strip_prefix(&format!("| {number} | ")));
    if let Some(row) = row {
        return Some(plain(first_sentence(row.split(" | ").next()?)));
    }
    let words: Vec<&str> = section.split_whitespace().collect();
    let text = words.join(" ");
    let (_, behind) = text.split_once(&format!(" {number}: "))?;
    Some(plain(first_sentence(behind)))
}
