//! Reading a case file: each line that is no comment is taken through the checks, 3 to 7, 20, 8, 9, 16, 17, 10 and 21,
//! one after the other over the whole line.
//!
//! From: document 01, The file; What each operation refuses (Reading); document 02, [1], [2], [5], [7] to [10].
//!
//! | name | meaning |
//! |---|---|
//! | `Check`, `CHECKS` | a check from 6 on; all of them in their order |
//! | `Rules`, `RULES` | how a file is read; as the documents say |
//! | `Rules::checked`, `Rules::in_order` | the rules of the documents with another check; with the checks in another order |
//! | `read`, `read_by` | the case of a file; the same by other rules |

use crate::case::Case;
use crate::cause::{settings, Cause, Edition, SETTINGS};
use crate::cost::price;
use crate::form::{form, Form, Spelling, SPELLING};
use crate::reading::{EditionLine, Reading};
use crate::tree::tree;

pub const FILE_BYTES: usize = 32_768;
pub const LINE_BYTES: usize = 200;
pub const NAME_BYTES: usize = 16;
pub const DEPTH: usize = 16;
pub const LITERALS: usize = 11;
pub const ATOMS: usize = 64;
pub const CLAUSES: usize = 256;
pub const CONSTRAINTS: usize = 32;
pub const CAUSES: usize = 10;
pub const QUERIES: usize = 16;
pub const CENTS: u64 = 2_000_000;
pub const PER_CENT: u64 = 100;

/// A refusal: its number and the line, 0 where no line is at fault.
#[derive(Clone, Copy, PartialEq)]
pub struct Refusal {
    pub number: u32,
    pub line: usize,
}

/// The number of a check, and whether a form fails it whose names are among those read.
pub type Check = (u32, fn(&Reading, &Form) -> bool);

/// The checks from 6 on, in their order.
pub const CHECKS: [Check; 9] = [
    (6, |_, said| said.names().iter().any(|n| n.len() > NAME_BYTES)),
    (7, |_, said| said.depth() > DEPTH),
    (20, |_, said| said.body().len() > LITERALS),
    (8, |reading, _| reading.names.len() > ATOMS),
    (9, |reading, said| reading.is_full_for(said)),
    (16, |_, said| matches!(said, Form::Cost(_, cents, per_cent) if is_dear(*cents, *per_cent))),
    (17, |reading, said| matches!(said, Form::Cost(name, ..) if !reading.prices_of(name).is_empty())),
    (10, |reading, said| matches!(said, Form::Query(_)) && reading.queries.len() == QUERIES),
    (21, |reading, said| matches!(said, Form::Edition(_)) && !reading.editions.is_empty()),
];

/// Whether the cents, the supplement, or the price worked out of both is over its limit.
fn is_dear(cents: u64, per_cent: u64) -> bool {
    cents > CENTS || per_cent > PER_CENT || price(cents, per_cent) > CENTS
}

/// A line of a file, and its number counted from 1.
pub type Numbered<'a> = (usize, &'a [u8]);

/// How a file is read: the order of its lines, how numbers and editions are spelled, the checks from 6 on, whether a
/// form's names are atoms, the price of cents with a supplement in per cent, the edition by the edition lines, and
/// whether causes are too many.
pub struct Rules {
    pub order: fn(Vec<Numbered>) -> Vec<Numbered>,
    pub spelling: Spelling,
    pub checks: [Check; 9],
    pub names_atoms: fn(&Form) -> bool,
    pub price: fn(u64, u64) -> u64,
    pub edition: fn(&[EditionLine]) -> Edition,
    pub are_too_many: fn(&[Cause]) -> bool,
}

/// The rules of the documents.
pub const RULES: Rules = Rules {
    order: |lines| lines,
    spelling: SPELLING,
    checks: CHECKS,
    names_atoms: |_| true,
    price,
    edition: |lines| lines.first().map_or(Edition::First, |line| line.edition),
    are_too_many: |causes| settings(causes) > SETTINGS,
};

/// The place of the check `number` among the checks.
const fn place(number: u32) -> usize {
    let mut at = 0;
    while CHECKS[at].0 != number {
        at += 1;
    }
    at
}

impl Rules {
    /// The rules of the documents with `fails` for the check `number`.
    pub const fn checked(number: u32, fails: fn(&Reading, &Form) -> bool) -> Rules {
        let mut checks = CHECKS;
        checks[place(number)] = (number, fails);
        Rules { checks, ..RULES }
    }

    /// The rules of the documents with the checks in the order `numbers`.
    pub const fn in_order(numbers: [u32; 9]) -> Rules {
        let mut checks = CHECKS;
        let mut at = 0;
        while at < CHECKS.len() {
            checks[at] = CHECKS[place(numbers[at])];
            at += 1;
        }
        Rules { checks, ..RULES }
    }
}

/// The case that `bytes` describes, or the refusal.
pub fn read(bytes: &[u8]) -> Result<Case, Refusal> {
    read_by(&RULES, bytes)
}

/// The case that `bytes` describes by `rules`, or the refusal.
pub fn read_by(rules: &Rules, bytes: &[u8]) -> Result<Case, Refusal> {
    if bytes.len() > FILE_BYTES {
        return Err(Refusal { number: 2, line: 0 });
    }
    let mut lines: Vec<&[u8]> = bytes.split(|b| *b == b'\n').collect();
    if lines.last().is_some_and(|l| l.is_empty()) {
        lines.pop();
    }
    let mut reading = Reading::default();
    for (line, bytes) in (rules.order)((1..).zip(lines).collect()) {
        take(&mut reading, rules, bytes).map_err(|number| Refusal { number, line })?;
    }
    close(reading, rules).map_err(|number| Refusal { number, line: 0 })
}

/// Whether `b` may stand in a line that is no comment.
fn allowed(b: u8) -> bool {
    b.is_ascii_lowercase() || b.is_ascii_digit() || b"- ()".contains(&b)
}

/// The form that `line` is, none for a comment or a line of spaces, or the number of the first of the checks 3 to 5
/// that it fails.
fn checked_form(line: &[u8], spelling: &Spelling) -> Result<Option<Form>, u32> {
    if line.first() == Some(&b';') {
        return Ok(None);
    }
    if line.len() > LINE_BYTES {
        return Err(3);
    }
    if !line.iter().all(|b| allowed(*b)) {
        return Err(4);
    }
    if line.iter().all(|b| *b == b' ') {
        return Ok(None);
    }
    let text = String::from_utf8_lossy(line);
    tree(&text).and_then(|t| form(&t, spelling)).map(Some).ok_or(5)
}

/// Takes one line to `reading`, or answers the number of the first check that it fails.
fn take(reading: &mut Reading, rules: &Rules, line: &[u8]) -> Result<(), u32> {
    let Some(said) = checked_form(line, &rules.spelling)? else {
        return Ok(());
    };
    if (rules.names_atoms)(&said) {
        reading.name(said.names());
    }
    if let Some((number, _)) = rules.checks.iter().find(|(_, fails)| fails(reading, &said)) {
        return Err(*number);
    }
    reading.add(said, rules.price);
    Ok(())
}

/// The case that all lines give, or the number of the check at the end of the file that fails.
fn close(reading: Reading, rules: &Rules) -> Result<Case, u32> {
    if reading.queries.is_empty() {
        return Err(11);
    }
    let edition = (rules.edition)(&reading.editions);
    let case = reading.case(edition);
    if (rules.are_too_many)(&case.causes()) {
        return Err(12);
    }
    Ok(case)
}
