//! How many generated files stand at the limit of both kinds of constraints together, and how many would be answered
//! otherwise under a wrong reading of their constraints.
//!
//! From: document 02, [5].

use crate::answer::{text, Answer};
use crate::case::Case;
use crate::constraint::{Constraint, Kind, KINDS};
use crate::file::{self, CONSTRAINTS};
use crate::question::ask_unheld;
use crate::tree::tokens;

/// A wrong reading: the words, and what it makes of the constraints of a case.
type Misreading = (&'static str, fn(&[Constraint]) -> Vec<Constraint>);

/// The wrong readings.
const MISREADINGS: [Misreading; 9] = [
    ("other with never as avoid", |all| with_kinds(all, |_| Kind::Avoid)),
    ("other with avoid as never", |all| with_kinds(all, |_| Kind::Never)),
    ("other with never and avoid exchanged", |all| with_kinds(all, exchanged)),
    ("other with the first kind for all", |all| with_kinds(all, |_| all[0].kind)),
    ("other with each literal of a never false", |all| all.iter().flat_map(taken_apart).collect()),
    ("other without never", |all| all.iter().filter(|c| c.kind != Kind::Never).cloned().collect()),
    ("other without avoid", |all| all.iter().filter(|c| c.kind != Kind::Avoid).cloned().collect()),
    ("other with the first 21 constraints only", |all| all.iter().take(21).cloned().collect()),
    ("other with the first 31 constraints only", |all| all.iter().take(31).cloned().collect()),
];

/// What stands at the limit: the words, and the kind of the constraint past it, if there is one.
const AT_LIMIT: [(&str, Option<Kind>); 3] = [
    ("32 constraints of both kinds", None),
    ("a never behind 32 constraints of both kinds", Some(Kind::Never)),
    ("an avoid behind 32 constraints of both kinds", Some(Kind::Avoid)),
];

/// `constraints` with the kinds that `kind` makes of theirs.
fn with_kinds(constraints: &[Constraint], kind: impl Fn(Kind) -> Kind) -> Vec<Constraint> {
    constraints.iter().map(|c| Constraint { kind: kind(c.kind), body: c.body.clone() }).collect()
}

/// The other kind.
fn exchanged(kind: Kind) -> Kind {
    match kind {
        Kind::Never => Kind::Avoid,
        Kind::Avoid => Kind::Never,
    }
}

/// For a `never` one with each of its literals alone, otherwise the constraint itself.
fn taken_apart(constraint: &Constraint) -> Vec<Constraint> {
    match constraint.kind {
        Kind::Never => constraint.body.chunks(1).map(|l| Constraint { kind: Kind::Never, body: l.to_vec() }).collect(),
        Kind::Avoid => vec![constraint.clone()],
    }
}

/// Whether `case`, which gets `own`, would get another answer with the constraints `constraints`.
fn is_other(case: &Case, own: &Answer, constraints: Vec<Constraint>) -> bool {
    let differs = constraints != case.constraints;
    let other = Case { constraints, ..case.clone() };
    differs && text(&ask_unheld(other), &case.names) != own.text
}

/// The kind of the constraint that `line` is, none if it is something else.
fn kind(line: &[u8]) -> Option<Kind> {
    match tokens(&String::from_utf8_lossy(line)).as_slice() {
        [open, word, ..] if open == "(" => KINDS.into_iter().find(|kind| kind.word() == word),
        _ => None,
    }
}

/// The kinds of the constraints in `file`, which gets `own`; where it is refused for one past the limit, of those
/// before it, and its kind.
fn kinds(file: &[u8], own: &Answer) -> Option<(Vec<Kind>, Option<Kind>)> {
    let lines: Vec<&[u8]> = file.split(|b| *b == b'\n').collect();
    let kinds = |lines: &[&[u8]]| lines.iter().filter_map(|line| kind(line)).collect();
    match &own.result {
        Ok(_) => Some((kinds(&lines), None)),
        Err(refusal) if refusal.number == 9 => {
            Some((kinds(&lines[..refusal.line - 1]), Some(kind(lines[refusal.line - 1])?)))
        }
        Err(_) => None,
    }
}

/// The words of each thing that is counted.
pub fn words() -> impl Iterator<Item = &'static str> {
    MISREADINGS.into_iter().map(|(what, _)| what).chain(AT_LIMIT.into_iter().map(|(what, _)| what))
}

/// Which of the things that are counted hold of `file`, which gets `own`.
pub fn met(file: &[u8], own: &Answer) -> Vec<bool> {
    let mut met = vec![false; words().count()];
    let (misread, at_limit) = met.split_at_mut(MISREADINGS.len());
    if let Ok(case) = file::read(file) {
        for (met, (_, misreading)) in misread.iter_mut().zip(MISREADINGS) {
            *met = is_other(&case, own, misreading(&case.constraints));
        }
    }
    if let Some((kinds, past)) = kinds(file, own) {
        let full = kinds.len() == CONSTRAINTS && KINDS.iter().all(|kind| kinds.contains(kind));
        for (met, (_, due)) in at_limit.iter_mut().zip(AT_LIMIT) {
            *met = full && past == due;
        }
    }
    met
}
