//! How many generated files would be refused otherwise, or have another cheapest explanation, under a wrong reading of
//! their cost and atom lines.
//!
//! From: document 02, [7], [8].

use crate::answer::{text, Asked};
use crate::cheapest_tally::{cost_by, lowest};
use crate::cost::price;
use crate::file::{read_by, Numbered, Rules, CENTS, PER_CENT, RULES};
use crate::form::{decimal, Form, Spelling, DIGITS, SPELLING};
use crate::question::ask_unheld;
use crate::reading::Reading;
use crate::tree::tokens;

/// A wrong reading: the words, and the rules by which it reads.
type Misread = (&'static str, Rules);

/// The wrong readings: of the price, of the numbers, of the checks and of the lines' order.
const MISREAD: [Misread; 30] = [
    ("other with half a cent downwards", priced(|cents, per_cent| cents + (cents * per_cent + 49) / 100)),
    ("other with half a cent to the even one", priced(to_even)),
    ("other with the supplement rounded down", priced(|cents, per_cent| cents + cents * per_cent / 100)),
    ("other with the supplement rounded up", priced(|cents, per_cent| cents + (cents * per_cent).div_ceil(100))),
    ("other with a supplement in per mille", priced(|cents, per_cent| cents + (cents * per_cent + 500) / 1_000)),
    ("other with a supplement in cents", priced(|cents, per_cent| cents + per_cent)),
    ("other without the supplement", priced(|cents, _| cents)),
    ("other with the supplement alone", priced(|cents, per_cent| price(cents, per_cent) - cents)),
    ("other with price and supplement exchanged", priced(|cents, per_cent| price(per_cent, cents))),
    ("other with at most six digits", numbered(|word| decimal(word).filter(|_| word.len() < DIGITS))),
    ("other with eight digits", numbered(eight_digits)),
    ("other without leading zeros", numbered(|word| decimal(word).filter(|n| n.to_string() == word))),
    ("other with 16 behind 17", Rules::in_order([6, 7, 20, 8, 9, 17, 16, 10, 21])),
    ("other with 16 before 8", Rules::in_order([6, 7, 20, 16, 8, 9, 17, 10, 21])),
    ("other with 16 before 6", Rules::in_order([16, 6, 7, 20, 8, 9, 17, 10, 21])),
    ("other with 16 at 2,000,000", Rules::checked(16, |_, said| is_over(said, CENTS - 1, PER_CENT))),
    ("other with 16 from 2,000,002 on", Rules::checked(16, |_, said| is_over(said, CENTS + 1, PER_CENT))),
    ("other with 16 at 100 per cent", Rules::checked(16, |_, said| is_over(said, CENTS, PER_CENT - 1))),
    ("other with 16 from 102 per cent on", Rules::checked(16, |_, said| is_over(said, CENTS, PER_CENT + 1))),
    ("other with 16 before the supplement", Rules::checked(16, |_, said| is_over_before(said, CENTS))),
    ("other with 16 from 1,000,001 on", Rules::checked(16, |_, said| is_over_before(said, CENTS / 2))),
    ("other with 16 by the supplement rounded down", Rules::checked(16, is_over_rounded_down)),
    ("other with a second line behind a price of 0", Rules::checked(17, has_price)),
    ("other with the last line of a name", Rules::checked(17, |_, _| false)),
    ("other with cost lines that name no atom", named(|said| !matches!(said, Form::Cost(..)))),
    ("other with cost lines before the others", ordered(|lines| lines_apart(lines, "cost", false))),
    ("other with cost lines behind the others", ordered(|lines| lines_apart(lines, "cost", true))),
    ("other with atom lines that name no atom", named(|said| !matches!(said, Form::Atom(_)))),
    ("other with atom lines before the others", ordered(|lines| lines_apart(lines, "atom", false))),
    ("other with atom lines behind the others", ordered(|lines| lines_apart(lines, "atom", true))),
];

/// The rules with the price `price`.
const fn priced(price: fn(u64, u64) -> u64) -> Rules {
    Rules { price, ..RULES }
}

/// The rules with the numbers of `number`.
const fn numbered(number: fn(&str) -> Option<u64>) -> Rules {
    Rules { spelling: Spelling { number, ..SPELLING }, ..RULES }
}

/// The rules with the atoms of those forms alone that `names_atoms` takes.
const fn named(names_atoms: fn(&Form) -> bool) -> Rules {
    Rules { names_atoms, ..RULES }
}

/// The rules with the lines in the order of `order`.
const fn ordered(order: fn(Vec<Numbered>) -> Vec<Numbered>) -> Rules {
    Rules { order, ..RULES }
}

/// The price with its supplement rounded to the nearest cent, half a cent to the even one.
fn to_even(cents: u64, per_cent: u64) -> u64 {
    let (whole, rest) = (cents * per_cent / 100, cents * per_cent % 100);
    cents + whole + u64::from(rest > 50 || rest == 50 && whole % 2 == 1)
}

/// The number that `word` is, with one to eight digits.
fn eight_digits(word: &str) -> Option<u64> {
    match word.split_at_checked(word.len().saturating_sub(DIGITS)) {
        Some(("", digits)) => decimal(digits),
        Some((first, digits)) if first.len() == 1 => {
            Some(decimal(first)? * 10u64.pow(DIGITS as u32) + decimal(digits)?)
        }
        _ => None,
    }
}

/// Whether `said` is a cost line with a price of more than `most` cents or more than `high` per cent.
fn is_over(said: &Form, most: u64, high: u64) -> bool {
    matches!(said, Form::Cost(_, cents, per_cent) if price(*cents, *per_cent) > most || *per_cent > high)
}

/// Whether `said` is a cost line with more than `most` cents before its supplement, or a supplement past its limit.
fn is_over_before(said: &Form, most: u64) -> bool {
    matches!(said, Form::Cost(_, cents, per_cent) if *cents > most || *per_cent > PER_CENT)
}

/// Whether `said` is a cost line with a price past the limit where its supplement is rounded down, or a supplement past
/// its own.
fn is_over_rounded_down(_: &Reading, said: &Form) -> bool {
    let lower = |cents: u64, per_cent: u64| cents + cents * per_cent / 100;
    matches!(said, Form::Cost(_, cents, per_cent) if lower(*cents, *per_cent) > CENTS || *per_cent > PER_CENT)
}

/// Whether `said` is a cost line of a name that has a price above 0.
fn has_price(reading: &Reading, said: &Form) -> bool {
    matches!(said, Form::Cost(name, ..) if reading.prices_of(name).iter().any(|price| *price > 0))
}

/// `lines` with those of the form's word `word` behind the others, or before them.
fn lines_apart<'a>(mut lines: Vec<Numbered<'a>>, word: &str, behind: bool) -> Vec<Numbered<'a>> {
    let is_one = |line: &[u8]| tokens(&String::from_utf8_lossy(line)).get(1).is_some_and(|w| w == word);
    lines.sort_by_key(|(_, line)| is_one(line) == behind);
    lines
}

/// Whether `file`, which gets `asked`, would get another answer by `rules`.
fn is_other(file: &[u8], asked: &Asked, rules: &Rules) -> bool {
    match (read_by(rules, file), asked) {
        (Err(other), Err(refusal)) => other != *refusal,
        (Ok(other), Ok((case, found))) if other.names == case.names => {
            lowest(&found.minimal, |s| cost_by(&other, found, s)) != found.cheapest
        }
        (Ok(other), Ok((case, found))) => {
            let names = other.names.clone();
            text(&ask_unheld(other), &names) != text(found, &case.names)
        }
        _ => true,
    }
}

/// The words of each thing that is counted.
pub fn words() -> impl Iterator<Item = &'static str> {
    MISREAD.iter().map(|(what, _)| *what)
}

/// Which of the wrong readings give `file`, which gets `asked`, another answer.
pub fn met(file: &[u8], asked: &Asked) -> Vec<bool> {
    MISREAD.iter().map(|(_, rules)| is_other(file, asked, rules)).collect()
}
