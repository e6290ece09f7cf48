//! How many generated files would have another decided total under a wrong reading of what is counted.
//!
//! From: document 02, [6].

use crate::answer::{Asked, LIST_SLOTS};
use crate::case::{Body, Case};
use crate::cause::has_explaining_subset;
use crate::formula::{Value, FALSE, TRUE, UNKNOWN};
use crate::model::Settled;
use crate::question::Findings;

/// A wrong reading: the words, and the total that it gives a case of which this is found.
type Misreading = (&'static str, fn(&Case, &Findings) -> u64);

/// The wrong readings: of what a round adds, of what an atom counts, of the settings, and of the sum.
const MISREADINGS: [Misreading; 25] = [
    ("other total with all decided atoms in each round", |_, found| over(found, in_each_round)),
    ("other total with the first round only", |_, found| over(found, |s| first(&s.newly))),
    ("other total with the last round only", |_, found| over(found, |s| last(&s.newly))),
    ("other total without the first round", |_, found| found.decided - over(found, |s| first(&s.newly))),
    ("other total without the last round", |_, found| found.decided - over(found, |s| last(&s.newly))),
    ("other total with true atoms only", |_, found| over(found, |s| atoms(s, |_, value| value == TRUE))),
    ("other total with false atoms only", |_, found| over(found, |s| atoms(s, |_, value| value == FALSE))),
    ("other total with undecided atoms too", |_, found| over(found, |s| s.model.len() as u64)),
    ("other total with undecided atoms only", |_, found| over(found, |s| atoms(s, |_, value| value == UNKNOWN))),
    ("other total without causes", |case, found| decided_atoms(found, |atom| bodies(case, atom) > 0)),
    ("other total with causes only", |case, found| decided_atoms(found, |atom| bodies(case, atom) == 0)),
    ("other total with heads of rules only", |case, found| decided_atoms(found, |atom| has_rule(case, atom))),
    ("other total without heads of rules", |case, found| decided_atoms(found, |atom| !has_rule(case, atom))),
    ("other total with an atom once for each clause", |case, found| over(found, |s| by_clause(case, s))),
    ("other total without the first setting", |_, found| found.decided - found.settled[0].decided()),
    ("other total without the last setting", |_, found| found.decided - last_setting(found)),
    ("other total with the last setting only", |_, found| last_setting(found)),
    ("other total with the most of a setting", |_, found| found.settled.iter().map(|s| s.decided()).max().unwrap_or(0)),
    ("other total with explaining settings only", |_, found| settings(found, |s| found.explains[s])),
    ("other total with minimal settings only", |_, found| settings(found, |s| found.minimal.contains(&s))),
    ("other total with listed settings only", |_, found| {
        found.minimal.iter().take(LIST_SLOTS).map(|s| found.settled[*s].decided()).sum()
    }),
    ("other total without settings above an explanation", |_, found| settings(found, |s| !is_above(found, s))),
    ("other total with an atom once for each query", |case, found| case.queries.len() as u64 * found.decided),
    ("other total with an atom once for all settings", |case, found| {
        (0..case.names.len()).filter(|a| found.settled.iter().any(|s| s.model[*a] != UNKNOWN)).count() as u64
    }),
    ("other total modulo 65,536", |_, found| found.decided % 65_536),
];

/// The sum of what `count` gives of each setting in `found`.
fn over(found: &Findings, count: impl Fn(&Settled) -> u64) -> u64 {
    found.settled.iter().map(count).sum()
}

/// The decided atoms of those settings in `found` that `counts` takes.
fn settings(found: &Findings, counts: impl Fn(usize) -> bool) -> u64 {
    (0..found.settled.len()).filter(|s| counts(*s)).map(|s| found.settled[s].decided()).sum()
}

/// The decided atoms of the last setting in `found`.
fn last_setting(found: &Findings) -> u64 {
    found.settled.last().map_or(0, |s| s.decided())
}

/// Whether some proper subset of the setting `s` in `found` explains.
fn is_above(found: &Findings, s: usize) -> bool {
    has_explaining_subset(s, &found.causes, &found.explains)
}

/// For each round the atoms that are decided after it, added up.
fn in_each_round(settled: &Settled) -> u64 {
    (1..=settled.newly.len()).map(|rounds| settled.newly[..rounds].iter().sum::<u64>()).sum()
}

/// The first of `counts`, 0 if there is none.
fn first(counts: &[u64]) -> u64 {
    counts.first().copied().unwrap_or(0)
}

/// The last of `counts`, 0 if there is none.
fn last(counts: &[u64]) -> u64 {
    counts.last().copied().unwrap_or(0)
}

/// The number of atoms that `counts` takes with their values in `settled`.
fn atoms(settled: &Settled, counts: impl Fn(usize, Value) -> bool) -> u64 {
    settled.model.iter().enumerate().filter(|(atom, value)| counts(*atom, **value)).count() as u64
}

/// Over all settings in `found` the decided atoms that `counts` takes.
fn decided_atoms(found: &Findings, counts: impl Fn(usize) -> bool) -> u64 {
    over(found, |s| atoms(s, |atom, value| value != UNKNOWN && counts(atom)))
}

/// The number of clauses for `atom` in `case`.
fn bodies(case: &Case, atom: usize) -> usize {
    case.clauses.iter().filter(|c| c.head == atom).count()
}

/// Whether `atom` heads a rule of `case`.
fn has_rule(case: &Case, atom: usize) -> bool {
    case.clauses.iter().any(|c| c.head == atom && matches!(c.body, Body::All(_)))
}

/// The clauses of `case` whose heads are decided in `settled`, and the causes that are.
fn by_clause(case: &Case, settled: &Settled) -> u64 {
    let weight = |atom: usize| bodies(case, atom).max(1) as u64;
    (0..settled.model.len()).filter(|atom| settled.model[*atom] != UNKNOWN).map(weight).sum()
}

/// The words of each thing that is counted.
pub fn words() -> impl Iterator<Item = &'static str> {
    MISREADINGS.into_iter().map(|(what, _)| what)
}

/// Which of the wrong readings give a file that gets `asked` another total; none of one that is refused.
pub fn met(asked: &Asked) -> Vec<bool> {
    let Ok((case, found)) = asked else { return vec![false; MISREADINGS.len()] };
    MISREADINGS.iter().map(|(_, total)| total(case, found) != found.decided).collect()
}
