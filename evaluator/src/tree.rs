//! A line as a tree of brackets and words.
//!
//! From: document 01, The file.

/// A word, or the trees between a pair of brackets.
pub enum Tree {
    Word(String),
    List(Vec<Tree>),
}

/// The brackets and words of `line`, which are the runs of all other bytes than brackets and spaces.
pub fn tokens(line: &str) -> Vec<String> {
    let mut found = Vec::new();
    let mut word = String::new();
    for c in line.chars().chain([' ']) {
        if !"() ".contains(c) {
            word.push(c);
            continue;
        }
        if !word.is_empty() {
            found.push(std::mem::take(&mut word));
        }
        if c != ' ' {
            found.push(c.to_string());
        }
    }
    found
}

/// The one tree that `line` is, if its brackets pair up and nothing stands beside it.
pub fn tree(line: &str) -> Option<Tree> {
    let mut open: Vec<Vec<Tree>> = vec![Vec::new()];
    for token in tokens(line) {
        match token.as_str() {
            "(" => open.push(Vec::new()),
            ")" => {
                let closed = open.pop()?;
                open.last_mut()?.push(Tree::List(closed));
            }
            _ => open.last_mut()?.push(Tree::Word(token)),
        }
    }
    let mut whole = open.pop()?;
    if open.is_empty() && whole.len() == 1 {
        whole.pop()
    } else {
        None
    }
}
