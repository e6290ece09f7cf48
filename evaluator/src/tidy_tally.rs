//! How many files were written or refused, at which limits their texts stood, and how many would be written otherwise
//! under a wrong reading of the rules.
//!
//! From: document 02, [8], [9], [10].

use crate::case::{Body, Case};
use crate::cause::Edition;
use crate::file::{Refusal, FILE_BYTES, LINE_BYTES, LITERALS};
use crate::formula::Literal;
use crate::writing::{joined, lines, Sections, Way, WAY};

/// What a file gets: its case with the text, or the refusal.
pub type Tidied = Result<(Case, String), Refusal>;

/// What is counted: the words, and whether a file is to be counted.
type Row = (&'static str, fn(&[u8], &Tidied) -> bool);

/// A wrong way to write: the words, and the way.
type Miswritten = (&'static str, Way);

/// What is counted of a file; each must occur.
const ROWS: [Row; 11] = [
    ("written", |_, own| own.is_ok()),
    ("written with more bytes", |file, own| own.as_ref().is_ok_and(|(_, text)| text.len() > file.len())),
    ("refused by reading", |_, own| own.as_ref().is_err_and(|refusal| refusal.number != 18)),
    ("refused with 20", |_, own| own.as_ref().is_err_and(|refusal| refusal.number == 20)),
    ("refused with 21", |_, own| own.as_ref().is_err_and(|refusal| refusal.number == 21)),
    ("refused with 18", |_, own| own.as_ref().is_err_and(|refusal| refusal.number == 18)),
    ("a line of 200 bytes", |_, own| own.as_ref().is_ok_and(|(_, text)| text.lines().any(|l| l.len() == LINE_BYTES))),
    ("a text of 32,768 bytes", |_, own| own.as_ref().is_ok_and(|(_, text)| text.len() == FILE_BYTES)),
    ("an atom plain and negated in a body", |_, own| own.as_ref().is_ok_and(|(case, _)| has_both(case))),
    ("a body of 11 literals", |_, own| own.as_ref().is_ok_and(|(case, _)| has_longest(case))),
    ("edition 2", |_, own| own.as_ref().is_ok_and(|(case, _)| case.edition == Edition::Second)),
];

/// The wrong ways: of literals, of observations, of prices, of the edition, of the order of lines, of spaces.
const MISWRITTEN: [Miswritten; 21] = [
    ("other with literals as in the file", Way { body: <[_]>::to_vec, ..WAY }),
    ("other with negated literals before plain ones", Way { body: negated_first, ..WAY }),
    ("other with literals by their atoms alone", Way { body: by_atom, ..WAY }),
    ("other with observations as in the file", Way { observations: <[_]>::to_vec, ..WAY }),
    ("other with negated observations before plain ones", Way { observations: negated_first, ..WAY }),
    ("other with observations by their atoms alone", Way { observations: by_atom, ..WAY }),
    ("other with a line for a price of 0", Way { has_line: |_| true, ..WAY }),
    ("other without cost lines", Way { has_line: |_| false, ..WAY }),
    ("other without the line of edition 2", Way { has_edition: |_| false, ..WAY }),
    ("other with a line of edition 1", Way { has_edition: |_| true, ..WAY }),
    ("other with the edition before atoms", Way { order: |s| swapped(s, 0, 1), ..WAY }),
    ("other with the edition behind clauses", Way { order: |s| swapped(s, 1, 2), ..WAY }),
    ("other with the edition at the end", Way { order: |s| last(s, 1), ..WAY }),
    ("other without atom lines", Way { order: without_atoms, ..WAY }),
    ("other with facts and assumptions before rules", Way { order: |s| sorted(s, 2, "(if "), ..WAY }),
    ("other with never lines before avoid lines", Way { order: |s| sorted(s, 3, "(avoid "), ..WAY }),
    ("other with constraints before clauses", Way { order: |s| swapped(s, 2, 3), ..WAY }),
    ("other with queries before observations", Way { order: |s| swapped(s, 4, 5), ..WAY }),
    ("other with costs before queries", Way { order: |s| swapped(s, 5, 6), ..WAY }),
    ("other with a space before an inner bracket", Way { spaces: |line| String::from(line), ..WAY }),
    ("other with a space behind an inner bracket", Way { spaces: spaced_behind, ..WAY }),
];

/// Whether `holds` holds of some body of `case`.
fn some_body(case: &Case, holds: impl Fn(&[Literal<usize>]) -> bool) -> bool {
    case.clauses.iter().any(|c| matches!(&c.body, Body::All(body) if holds(body)))
        || case.constraints.iter().any(|c| holds(&c.body))
}

/// Whether some body of `case` has an atom and its negation.
fn has_both(case: &Case) -> bool {
    some_body(case, |body| {
        body.iter().any(|l| body.iter().any(|other| l.atom == other.atom && l.negated != other.negated))
    })
}

/// Whether some body of `case` has as many different literals as a line may have.
fn has_longest(case: &Case) -> bool {
    some_body(case, |body| (WAY.body)(body).len() == LITERALS)
}

/// The different ones among `literals`, negated ones before plain ones, each in atom order.
fn negated_first(literals: &[Literal<usize>]) -> Vec<Literal<usize>> {
    let mut all = (WAY.body)(literals);
    all.sort_by_key(|l| !l.negated);
    all
}

/// The different ones among `literals` in atom order, whether plain or negated.
fn by_atom(literals: &[Literal<usize>]) -> Vec<Literal<usize>> {
    let mut all = (WAY.body)(literals);
    all.sort_by_key(|l| l.atom);
    all
}

/// `sections` without the first.
fn without_atoms(mut sections: Sections) -> Sections {
    sections[0].clear();
    sections
}

/// `sections` with the lines of one that begin with `front` behind its others.
fn sorted(mut sections: Sections, at: usize, front: &str) -> Sections {
    sections[at].sort_by_key(|line| line.starts_with(front));
    sections
}

/// `sections` with two exchanged.
fn swapped(mut sections: Sections, one: usize, other: usize) -> Sections {
    sections.swap(one, other);
    sections
}

/// `sections` with one of them behind the others.
fn last(mut sections: Sections, at: usize) -> Sections {
    sections[at..].rotate_left(1);
    sections
}

/// `line` with a space behind each closing bracket before a word or an opening one.
fn spaced_behind(line: &str) -> String {
    let squeezed = (WAY.spaces)(line);
    squeezed.replace(')', ") ").replace(") )", "))").replace(") )", "))").trim_end().to_string()
}

/// The words of each thing that is counted.
pub fn words() -> impl Iterator<Item = &'static str> {
    ROWS.into_iter().map(|(what, _)| what).chain(MISWRITTEN.iter().map(|(what, _)| *what))
}

/// Which of these count `file`, which should get `own`.
pub fn met(file: &[u8], own: &Tidied) -> Vec<bool> {
    let is_other = |way: &Way| own.as_ref().is_ok_and(|(case, text)| joined(&lines(way, case)) != *text);
    let rows = ROWS.iter().map(|(_, holds)| holds(file, own));
    rows.chain(MISWRITTEN.iter().map(|(_, way)| is_other(way))).collect()
}
