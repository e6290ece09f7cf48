//! How many files were layered, had a ring or were refused, and how many would be answered otherwise under a wrong
//! reading of the rules.

use crate::case::{Body, Case, Clause};
use crate::cause::Edition;
use crate::constraint::Constraint;
use crate::file::Refusal;
use crate::formula::Literal;
use crate::layers::{dependence, numbers};
use crate::layers_answer::Layering;

/// A number that is reached only on a long way: that of the top of a chain of 55.
const HIGH: u64 = 54;

/// What is counted: the words, and whether a file is to be counted.
type Row = (&'static str, fn(&Result<Layering, Refusal>) -> bool);

/// Everything that is counted; each must occur.
const ROWS: [Row; 13] = [
    ("layered", |own| own.as_ref().is_ok_and(|l| l.numbers.is_some())),
    ("a ring", |own| own.as_ref().is_ok_and(|l| l.numbers.is_none())),
    ("refused", |own| own.is_err()),
    ("refused with 16 or 17", |own| own.as_ref().is_err_and(|refusal| [16, 17].contains(&refusal.number))),
    ("refused with 20", |own| own.as_ref().is_err_and(|refusal| refusal.number == 20)),
    ("refused with 21", |own| own.as_ref().is_err_and(|refusal| refusal.number == 21)),
    ("edition 2", |own| own.as_ref().is_ok_and(|l| l.case.edition == Edition::Second)),
    ("a number of 54 and more", |own| own.as_ref().is_ok_and(is_high)),
    ("an atom in its own body", |own| own.as_ref().is_ok_and(names_itself)),
    ("an atom of a cost or an atom line alone", |own| own.as_ref().is_ok_and(|l| has_only_priced(&l.case))),
    ("other without negated atoms", |own| own.as_ref().is_ok_and(|l| differs(l, without_negated))),
    ("other with first bodies only", |own| own.as_ref().is_ok_and(|l| differs(l, with_first_bodies))),
    ("other with constraints as rules", |own| own.as_ref().is_ok_and(|l| differs(l, with_constraints))),
];

/// Whether some atom has a high number.
fn is_high(layering: &Layering) -> bool {
    layering.numbers.iter().flatten().any(|n| *n >= HIGH)
}

/// Whether some atom stands in its own body.
fn names_itself(layering: &Layering) -> bool {
    layering.dependence.iter().enumerate().any(|(atom, named)| named.contains(&atom))
}

/// Whether some atom of `case` stands in no clause, constraint, observation or query.
fn has_only_priced(case: &Case) -> bool {
    let in_body = |body: &[Literal<usize>], atom| body.iter().any(|l| l.atom == atom);
    let in_clause = |c: &Clause, atom| c.head == atom || matches!(&c.body, Body::All(body) if in_body(body, atom));
    (0..case.names.len()).any(|atom| {
        !case.clauses.iter().any(|c| in_clause(c, atom))
            && !case.constraints.iter().any(|c| in_body(&c.body, atom))
            && !in_body(&case.observations, atom)
            && !case.queries.iter().any(|query| query.atoms().contains(&&atom))
    })
}

/// Whether the numbers are others, or there are none on one side only, in what `misread` makes of the case.
fn differs(layering: &Layering, misread: fn(&Case) -> Vec<Clause>) -> bool {
    let other = Case { clauses: misread(&layering.case), ..layering.case.clone() };
    numbers(&dependence(&other)) != layering.numbers
}

/// The clauses of `case` without negated literals.
fn without_negated(case: &Case) -> Vec<Clause> {
    let plain = |body: &[Literal<usize>]| body.iter().filter(|l| !l.negated).cloned().collect();
    let clause = |c: &Clause| match &c.body {
        Body::All(body) => Clause { head: c.head, body: Body::All(plain(body)) },
        _ => c.clone(),
    };
    case.clauses.iter().map(clause).collect()
}

/// Of the rules of `case` the first of each head.
fn with_first_bodies(case: &Case) -> Vec<Clause> {
    let mut rules: Vec<Clause> = case.clauses.iter().filter(|c| matches!(c.body, Body::All(_))).cloned().collect();
    rules.sort_by_key(|rule| rule.head);
    rules.dedup_by_key(|rule| rule.head);
    rules
}

/// The clauses of `case`, and each constraint as a rule with its first atom as head.
fn with_constraints(case: &Case) -> Vec<Clause> {
    let rule = |c: &Constraint| Clause { head: c.body[0].atom, body: Body::All(c.body[1..].to_vec()) };
    case.clauses.iter().cloned().chain(case.constraints.iter().map(rule)).collect()
}

/// The words of each of the rows.
pub fn words() -> impl Iterator<Item = &'static str> {
    ROWS.into_iter().map(|(what, _)| what)
}

/// Which of the rows count a file that should get `own`.
pub fn met(own: &Result<Layering, Refusal>) -> Vec<bool> {
    ROWS.map(|(_, holds)| holds(own)).to_vec()
}
