//! How many generated files have edition lines and causes of two choices, and how many would get another answer under a
//! wrong reading of edition lines, of the limit of settings, of what a cause is and of what is minimal.
//!
//! From: document 02, [10].

use crate::answer::{text, Asked};
use crate::case::{Body, Case};
use crate::cause::{causes, digits, parts, settings, Cause, Choice, Edition, SETTINGS, THREE, TWO};
use crate::file::{read_by, Rules, CAUSES, RULES};
use crate::form::{edition, Form, Spelling, SPELLING};
use crate::formula::UNKNOWN;
use crate::question::{ask_with, Findings};
use crate::reading::{EditionLine, Reading};
use crate::tree::tokens;

/// The most settings that are walked through again under a wrong reading.
const WALKED: u128 = 243;

/// What holds of a file that is read: the words, and whether it does where this is found.
type Row = (&'static str, fn(&Case, &Findings) -> bool);

/// A wrong reading of lines: the words, and the rules by which it reads.
type Misread = (&'static str, Rules);

/// A wrong reading of causes: the words, and the causes that it finds.
type Miscaused = (&'static str, fn(&Case) -> Vec<Cause>);

/// A wrong reading of what is minimal: the words, and the list that it gives where this is found.
type Mislisted = (&'static str, fn(&Findings) -> Vec<usize>);

/// What is to be met beside the wrong readings.
const ROWS: [Row; 7] = [
    ("causes of two choices", |_, found| has(found, TWO)),
    ("causes of two and of three choices", |_, found| has(found, TWO) && has(found, THREE)),
    ("a cause of two choices before one of three", |_, found| {
        found.causes.windows(2).any(|w| w[0].choices == TWO && w[1].choices == THREE)
    }),
    ("15 causes of two choices", |_, found| found.causes.iter().filter(|c| c.choices == TWO).count() == 15),
    ("an override in an explanation", |_, found| found.minimal.iter().any(|s| overrides(found, *s))),
    ("an explanation undone by a further cause", |_, found| {
        is_undone(found, |s, more| found.explains[s] && !found.explains[more])
    }),
    ("a decided head of a rule undone by a further cause", |case, found| {
        is_undone(found, |s, more| undoes(case, found, s, more))
    }),
];

/// The wrong readings of edition lines and of the limit of settings.
const MISREAD: [Misread; 13] = [
    ("other with a second edition line taken", Rules { edition: last_line, ..UNCHECKED }),
    ("other with a second edition line passed over", UNCHECKED),
    ("other with a second line of the same edition taken", Rules::checked(21, |r, said| is_second(r, said, false))),
    ("other with a second line of another edition taken", Rules::checked(21, |r, said| is_second(r, said, true))),
    ("other with edition lines before all clauses only", Rules { edition: before_clauses, ..RULES }),
    ("other with edition 1 for all", Rules { edition: |_| Edition::First, ..RULES }),
    ("other with zeros before an edition", spelled(|word| edition(word.trim_start_matches('0')))),
    ("other with an edition 0", spelled(|word| if word == "0" { Some(Edition::First) } else { edition(word) })),
    ("other with an edition 3", spelled(|word| if word == "3" { Some(Edition::Second) } else { edition(word) })),
    ("other with 12 from an 11th cause on", Rules { are_too_many: |causes| causes.len() > CAUSES, ..RULES }),
    ("other with 12 by causes of three choices only", Rules { are_too_many: by_threes, ..RULES }),
    ("other with 12 at 59,049 settings", Rules { are_too_many: |causes| settings(causes) >= SETTINGS, ..RULES }),
    ("other with 12 past 65,536 settings", Rules { are_too_many: |causes| settings(causes) > 65_536, ..RULES }),
];

/// The wrong readings that look for a second edition line before the checks 3 to 5: the words, and the check.
const EARLY: [(&str, u32); 3] =
    [("other with 21 before 3", 3), ("other with 21 before 4", 4), ("other with 21 before 5", 5)];

/// The wrong reading that keeps 21 for the end of the file.
const LATE: &str = "other with 21 behind all lines";

/// The wrong readings of what a cause is, of its choices and of the causes' order.
const MISCAUSED: [Miscaused; 11] = [
    ("other with assumed atoms as causes in edition 1", |case| {
        causes(Edition::Second, case.names.len(), &case.clauses)
    }),
    ("other with three choices for all", |case| with_choices(case, |_| THREE)),
    ("other with two choices for all", |case| with_choices(case, |_| TWO)),
    ("other with an assumption for an override", |case| {
        with_choices(case, |c| if c == TWO { &[Choice::Nothing, Choice::Assumption] } else { c })
    }),
    ("other with an atom with some assumption as a cause", |case| by_bodies(case, |all| all.iter().any(is_assumed))),
    ("other with an atom by its first clause", |case| by_bodies(case, |all| is_assumed(&all[0]))),
    ("other with an atom by its last clause", |case| by_bodies(case, |all| is_assumed(&all[all.len() - 1]))),
    ("other with atoms of one assumption only", |case| by_bodies(case, |all| all.len() == 1 && is_assumed(&all[0]))),
    ("other with atoms of facts and assumptions", |case| {
        by_bodies(case, |all| all.iter().all(|body| !matches!(body, Body::All(_))))
    }),
    ("other with overrides behind the other causes", |case| {
        let mut all = case.causes();
        all.sort_by_key(|cause| cause.choices == TWO);
        all
    }),
    ("other with assumed atoms as the only causes", |case| {
        let all = case.causes();
        all.into_iter().filter(|cause| case.edition == Edition::First || cause.choices == TWO).collect()
    }),
];

/// The wrong readings of what is minimal.
const MISLISTED: [Mislisted; 3] = [
    ("other list with one cause dropped only", |found| {
        explaining(found, |s| !parts(s, &found.causes).iter().any(|part| found.explains[s - part]))
    }),
    ("other list with all causes dropped only", |found| explaining(found, |s| s == 0 || !found.explains[0])),
    ("other list with the fewest causes", |found| {
        let count = |s: &usize| parts(*s, &found.causes).len();
        let fewest = found.minimal.iter().map(count).min();
        found.minimal.iter().copied().filter(|s| Some(count(s)) == fewest).collect()
    }),
];

/// The rules without the check 21.
const UNCHECKED: Rules = Rules::checked(21, |_, _| false);

/// The rules with editions spelled as `edition` says.
const fn spelled(edition: fn(&str) -> Option<Edition>) -> Rules {
    Rules { spelling: Spelling { edition, ..SPELLING }, ..RULES }
}

/// Whether some cause in `found` has the choices `choices`.
fn has(found: &Findings, choices: &[Choice]) -> bool {
    found.causes.iter().any(|cause| cause.choices == choices)
}

/// Whether the setting `s` in `found` gives a cause of two choices a fact.
fn overrides(found: &Findings, s: usize) -> bool {
    found.causes.iter().zip(digits(s, &found.causes)).any(|(cause, digit)| cause.choices == TWO && digit > 0)
}

/// The settings in `found` that explain and that `counts` takes.
fn explaining(found: &Findings, counts: impl Fn(usize) -> bool) -> Vec<usize> {
    (0..found.explains.len()).filter(|s| found.explains[*s] && counts(*s)).collect()
}

/// Whether `undone` holds of a setting in `found` and one with a further cause, where there are causes of two choices.
fn is_undone(found: &Findings, undone: impl Fn(usize, usize) -> bool) -> bool {
    let is_below = |more: usize| parts(more, &found.causes).iter().any(|part| undone(more - part, more));
    has(found, TWO) && (0..found.explains.len()).any(is_below)
}

/// Whether a head of a rule of `case` that is decided under the setting `s` is not decided alike under `more`.
fn undoes(case: &Case, found: &Findings, s: usize, more: usize) -> bool {
    let (before, after) = (&found.settled[s].model, &found.settled[more].model);
    let mut heads = case.clauses.iter().filter(|c| matches!(c.body, Body::All(_))).map(|c| c.head);
    heads.any(|head| before[head] != UNKNOWN && before[head] != after[head])
}

/// The edition of the last of `lines`.
fn last_line(lines: &[EditionLine]) -> Edition {
    lines.last().map_or(Edition::First, |line| line.edition)
}

/// The edition of the first of `lines`, if no clause stands before it.
fn before_clauses(lines: &[EditionLine]) -> Edition {
    lines.first().filter(|line| line.clauses == 0).map_or(Edition::First, |line| line.edition)
}

/// Whether `said` is a second edition line, of the same edition as the first or, as `is_same` says, of another one.
fn is_second(reading: &Reading, said: &Form, is_same: bool) -> bool {
    let is_alike = |first: &EditionLine| matches!(said, Form::Edition(e) if (*e == first.edition) == is_same);
    reading.editions.first().is_some_and(is_alike)
}

/// Whether those of `causes` that have three choices are too many alone.
fn by_threes(causes: &[Cause]) -> bool {
    settings(&causes.iter().copied().filter(|cause| cause.choices == THREE).collect::<Vec<_>>()) > SETTINGS
}

/// The causes of `case`, in edition 2 with what `choices` makes of their choices.
fn with_choices(case: &Case, choices: fn(&'static [Choice]) -> &'static [Choice]) -> Vec<Cause> {
    let other = |cause: Cause| match case.edition {
        Edition::First => cause,
        Edition::Second => Cause { choices: choices(cause.choices), ..cause },
    };
    case.causes().into_iter().map(other).collect()
}

/// Whether `body` is that of an assumption.
fn is_assumed(body: &Body) -> bool {
    matches!(body, Body::False)
}

/// The causes of `case`, in edition 2 with those atoms for causes of two choices whose bodies `is_cause` takes.
fn by_bodies(case: &Case, is_cause: fn(&[Body]) -> bool) -> Vec<Cause> {
    let choices = |atom: usize| {
        let bodies: Vec<Body> = case.clauses.iter().filter(|c| c.head == atom).map(|c| c.body.clone()).collect();
        match bodies.as_slice() {
            [] => Some(THREE),
            all => (case.edition == Edition::Second && is_cause(all)).then_some(TWO),
        }
    };
    (0..case.names.len()).filter_map(|atom| Some(Cause { atom, choices: choices(atom)? })).collect()
}

/// Whether `case`, of which this is found, would get another answer with `causes`; where that takes a long walk, it is
/// not looked at.
fn is_other_with(case: &Case, found: &Findings, causes: Vec<Cause>) -> bool {
    let is_long = |causes: &[Cause]| settings(causes) > WALKED;
    if causes == found.causes || settings(&causes) > SETTINGS {
        return causes != found.causes;
    }
    let is_walked = !is_long(&causes) && !is_long(&found.causes);
    is_walked && text(&ask_with(case.clone(), causes), &case.names) != text(found, &case.names)
}

/// Whether `file`, which gets `asked`, would get another answer by `rules`.
fn is_other(file: &[u8], asked: &Asked, rules: &Rules) -> bool {
    match (read_by(rules, file), asked) {
        (Err(other), Err(refusal)) => other != *refusal,
        (Ok(other), Ok((case, found))) => is_other_with(case, found, other.causes()),
        _ => true,
    }
}

/// Whether `line` opens as an edition line does.
fn opens(line: &[u8]) -> bool {
    matches!(tokens(&String::from_utf8_lossy(line)).as_slice(), [open, word, ..] if open == "(" && word == "edition")
}

/// Whether `file`, which gets `asked`, is refused with `number` in an edition line behind another one.
fn is_early(file: &[u8], asked: &Asked, number: u32) -> bool {
    let lines: Vec<&[u8]> = file.split(|b| *b == b'\n').collect();
    asked.as_ref().is_err_and(|refusal| {
        refusal.number == number && opens(lines[refusal.line - 1]) && lines[..refusal.line - 1].iter().any(|l| opens(l))
    })
}

/// The words of each thing that is counted.
pub fn words() -> impl Iterator<Item = &'static str> {
    let read = ROWS.iter().map(|(what, _)| *what).chain(MISREAD.iter().map(|(what, _)| *what));
    let refused = EARLY.iter().map(|(what, _)| *what).chain([LATE]);
    let walked = MISCAUSED.iter().map(|(what, _)| *what).chain(MISLISTED.iter().map(|(what, _)| *what));
    read.chain(refused).chain(walked)
}

/// Which of these hold of `file`, which gets `asked`.
pub fn met(file: &[u8], asked: &Asked) -> Vec<bool> {
    let found = asked.as_ref().ok();
    let rows = ROWS.iter().map(|(_, holds)| found.is_some_and(|(case, found)| holds(case, found)));
    let misread = MISREAD.iter().map(|(_, rules)| is_other(file, asked, rules));
    let early = EARLY.iter().map(|(_, number)| is_early(file, asked, *number));
    let late = asked.as_ref().is_err_and(|refusal| refusal.number == 21) && read_by(&UNCHECKED, file).is_err();
    let miscaused =
        MISCAUSED.iter().map(|(_, other)| found.is_some_and(|(case, found)| is_other_with(case, found, other(case))));
    let mislisted = MISLISTED.iter().map(|(_, other)| found.is_some_and(|(_, found)| other(found) != found.minimal));
    rows.chain(misread).chain(early).chain([late]).chain(miscaused).chain(mislisted).collect()
}
