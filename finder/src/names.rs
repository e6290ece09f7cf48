//! The causes of a file that has too many settings to be read. All its lines are lawful, so its words tell.

/// The causes of a file, each in the order of its first appearance.
pub struct Causes<'a> {
    /// Those of three choices: the names that head no clause.
    pub three: Vec<&'a str>,
    /// Those of two choices, in edition 2: the names whose clauses are all assumptions.
    pub two: Vec<&'a str>,
}

/// Whether `b` belongs to a word.
fn in_word(b: u8) -> bool {
    b.is_ascii_lowercase() || b.is_ascii_digit() || b == b'-'
}

/// Whether `word`, which is no form's word, is a name; the others are the numbers of cost and edition lines.
fn is_name(word: &str) -> bool {
    word.bytes().next().is_some_and(|b| b.is_ascii_lowercase())
}

/// The words of `line`, each with whether it stands behind a bracket and so is a form's word.
fn words(line: &str) -> Vec<(bool, &str)> {
    let mut words = Vec::new();
    let mut behind_bracket = false;
    let mut rest = line;
    while let Some(first) = rest.bytes().next() {
        let length = rest.bytes().position(|b| !in_word(b)).unwrap_or(rest.len()).max(1);
        let (front, behind) = rest.split_at(length);
        match first {
            b'(' => behind_bracket = true,
            b' ' => (),
            _ => {
                if in_word(first) {
                    words.push((behind_bracket, front));
                }
                behind_bracket = false;
            }
        }
        rest = behind;
    }
    words
}

/// The causes of `file`; each line is a comment, of spaces, or a form.
pub fn causes(file: &[u8]) -> Causes<'_> {
    let mut names: Vec<&str> = Vec::new();
    let mut assumed: Vec<&str> = Vec::new();
    let mut firm: Vec<&str> = Vec::new();
    let mut second_edition = false;
    let lines = file.split(|b| *b == b'\n').filter(|line| line.first() != Some(&b';'));
    for line in lines.filter_map(|line| std::str::from_utf8(line).ok()) {
        let words = words(line);
        let named = || words.iter().filter(|(form, word)| !form && is_name(word)).map(|(_, name)| *name);
        match words.first() {
            Some((true, "false")) => assumed.extend(named().next()),
            Some((true, "true" | "if")) => firm.extend(named().next()),
            Some((true, "edition")) => second_edition = words.last() == Some(&(false, "2")),
            _ => (),
        }
        for name in named() {
            if !names.contains(&name) {
                names.push(name);
            }
        }
    }
    names.retain(|name| !firm.contains(name));
    let (assumed, three): (Vec<&str>, Vec<&str>) = names.into_iter().partition(|name| assumed.contains(name));
    Causes { three, two: if second_edition { assumed } else { Vec::new() } }
}
