//! How many generated files have bodies at the limit of their literals, and how many would be refused otherwise, or not
//! at all, under a wrong reading of it.
//!
//! From: document 02, [9].

use crate::answer::Asked;
use crate::constraint::Kind;
use crate::file::{read_by, Refusal, Rules, LITERALS};
use crate::form::Form;
use crate::reading::Reading;
use crate::tree::tokens;
use std::collections::BTreeSet;

/// A wrong reading: the words, and the rules by which it reads.
type Misread = (&'static str, Rules);

/// The wrong readings by other rules: of the limit, of what counts, of the lines that have it, of its place among the
/// checks.
const MISREAD: [Misread; 20] = [
    ("other without the limit of literals", Rules::checked(20, |_, _| false)),
    ("other with a 12th literal taken", Rules::checked(20, |_, said| said.body().len() > LITERALS + 1)),
    ("other with an 11th literal refused", Rules::checked(20, |_, said| said.body().len() >= LITERALS)),
    ("other with a 13th literal taken", Rules::checked(20, |_, said| said.body().len() == LITERALS + 1)),
    ("other with repeats counted once", Rules::checked(20, |_, said| different(said) > LITERALS)),
    ("other with an atom and its negation counted once", Rules::checked(20, |_, said| atoms(said) > LITERALS)),
    ("other with the head counted", Rules::checked(20, |_, said| with_head(said) > LITERALS)),
    ("other with plain literals counted only", Rules::checked(20, |_, said| signed(said, false) > LITERALS)),
    ("other with negated literals counted only", Rules::checked(20, |_, said| signed(said, true) > LITERALS)),
    ("other with a negated literal counted twice", Rules::checked(20, |_, said| with_not(said) > LITERALS)),
    ("other with all literals of the file counted", Rules::checked(20, |r, said| together(r, said) > LITERALS)),
    ("other with the names of a query counted", Rules::checked(20, |_, said| names(said) > LITERALS)),
    ("other with a 12th reading refused", Rules::checked(20, |r, said| is_long(said) || is_past_readings(r, said))),
    ("other without the limit for if lines", Rules::checked(20, |_, said| is_long(said) && kind(said).is_some())),
    ("other without the limit for never lines", Rules::checked(20, |_, said| is_long_but(said, Kind::Never))),
    ("other without the limit for avoid lines", Rules::checked(20, |_, said| is_long_but(said, Kind::Avoid))),
    ("other with the limit for if lines only", Rules::checked(20, |_, said| is_long(said) && kind(said).is_none())),
    ("other with 20 before 6", Rules::in_order([20, 6, 7, 8, 9, 16, 17, 10, 21])),
    ("other with 20 behind 8", Rules::in_order([6, 7, 8, 20, 9, 16, 17, 10, 21])),
    ("other with 20 behind 9", Rules::in_order([6, 7, 8, 9, 20, 16, 17, 10, 21])),
];

/// The wrong readings that look at literals before the checks 3 to 5: the words, and the check.
const EARLY: [(&str, u32); 3] =
    [("other with 20 before 3", 3), ("other with 20 before 4", 4), ("other with 20 before 5", 5)];

/// The wrong reading that keeps 20 for the end of the file.
const LATE: &str = "other with 20 behind all lines";

/// Bodies around the limit: the words, the form's word, and the number of literals.
const AROUND: [(&str, &str, usize); 12] = [
    ("an if line of 10 literals", "if", 10),
    ("an if line of 11 literals", "if", 11),
    ("an if line of 12 literals", "if", 12),
    ("an if line of 13 literals", "if", 13),
    ("a never line of 10 literals", "never", 10),
    ("a never line of 11 literals", "never", 11),
    ("a never line of 12 literals", "never", 12),
    ("a never line of 13 literals", "never", 13),
    ("an avoid line of 10 literals", "avoid", 10),
    ("an avoid line of 11 literals", "avoid", 11),
    ("an avoid line of 12 literals", "avoid", 12),
    ("an avoid line of 13 literals", "avoid", 13),
];

/// The kind of the constraint that `said` is, none if it is something else.
fn kind(said: &Form) -> Option<Kind> {
    match said {
        Form::Constraint(kind, _) => Some(*kind),
        _ => None,
    }
}

/// Whether `said` has a 12th literal.
fn is_long(said: &Form) -> bool {
    said.body().len() > LITERALS
}

/// Whether `said` has a 12th literal and is no constraint of the kind `spared`.
fn is_long_but(said: &Form, spared: Kind) -> bool {
    is_long(said) && kind(said) != Some(spared)
}

/// Whether `said` is a reading behind as many as a body may have literals.
fn is_past_readings(reading: &Reading, said: &Form) -> bool {
    matches!(said, Form::Seen(_)) && reading.readings() >= LITERALS
}

/// How many different literals the body of `said` has.
fn different(said: &Form) -> usize {
    said.body().iter().map(|l| (&l.atom, l.negated)).collect::<BTreeSet<_>>().len()
}

/// How many different atoms the body of `said` has.
fn atoms(said: &Form) -> usize {
    said.body().iter().map(|l| &l.atom).collect::<BTreeSet<_>>().len()
}

/// The literals of `said` together with its head, if it is a rule.
fn with_head(said: &Form) -> usize {
    said.body().len() + usize::from(matches!(said, Form::Rule(..)))
}

/// How many literals of `said` are negated, or plain.
fn signed(said: &Form, negated: bool) -> usize {
    said.body().iter().filter(|l| l.negated == negated).count()
}

/// The literals of `said`, a negated one for two.
fn with_not(said: &Form) -> usize {
    said.body().len() + signed(said, true)
}

/// The literals of the lines before `said` and its own, if it has any.
fn together(reading: &Reading, said: &Form) -> usize {
    if said.body().is_empty() {
        0
    } else {
        reading.literals() + said.body().len()
    }
}

/// The names in the formula of `said`, or else its literals.
fn names(said: &Form) -> usize {
    match said {
        Form::Query(f) => f.atoms().len(),
        _ => said.body().len(),
    }
}

/// The form's word of `line` and how many literals it would have, if it opens as a form with a body does.
fn opened(line: &[u8]) -> Option<(String, usize)> {
    let all = tokens(&String::from_utf8_lossy(line));
    let word = all.get(1).filter(|word| all[0] == "(" && ["if", "never", "avoid"].contains(&word.as_str()))?;
    let (mut depth, mut found) = (1, 0);
    for token in &all[2..] {
        found += usize::from(depth == 1 && token != ")");
        depth += i32::from(token == "(") - i32::from(token == ")");
    }
    Some((word.clone(), found - usize::from(word == "if" && found > 0)))
}

/// The lines of `file` in which a body tells: all of one that is read, the one that is refused with `number`.
fn telling<'a>(file: &'a [u8], own: Option<&Refusal>, number: u32) -> Vec<&'a [u8]> {
    let lines = file.split(|b| *b == b'\n');
    match own {
        None => lines.collect(),
        Some(refusal) if refusal.number == number => lines.skip(refusal.line - 1).take(1).collect(),
        Some(_) => Vec::new(),
    }
}

/// The words of each thing that is counted.
pub fn words() -> impl Iterator<Item = &'static str> {
    let early = EARLY.into_iter().map(|(what, _)| what);
    let around = AROUND.into_iter().map(|(what, ..)| what);
    MISREAD.iter().map(|(what, _)| *what).chain(early).chain([LATE]).chain(around)
}

/// Which of these hold of `file`, which gets `asked`.
pub fn met(file: &[u8], asked: &Asked) -> Vec<bool> {
    let own = asked.as_ref().err();
    let misread = MISREAD.iter().map(|(_, rules)| read_by(rules, file).err().as_ref() != own);
    let is_past = |line: &&[u8]| opened(line).is_some_and(|(_, found)| found > LITERALS);
    let early = EARLY.iter().map(|(_, number)| own.is_some() && telling(file, own, *number).iter().any(is_past));
    let unlimited = || read_by(&Rules::checked(20, |_, _| false), file);
    let late = own.is_some_and(|refusal| refusal.number == 20 && unlimited().is_err());
    let bodies: Vec<(String, usize)> = telling(file, own, 20).into_iter().filter_map(opened).collect();
    let around = AROUND.iter().map(|(_, word, count)| bodies.iter().any(|(w, n)| w == word && n == count));
    misread.chain(early).chain([late]).chain(around).collect()
}
