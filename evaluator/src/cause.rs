//! Causes: the editions, the causes of a case with their choices, and settings as numbers in mixed base.
//!
//! From: document 01, Causes, settings, explanations; document 02, [10].
//!
//! | name | meaning |
//! |---|---|
//! | `Edition` | which atoms are causes |
//! | `Choice`, `THREE`, `TWO` | what a set gives a cause; the choices of a setting, by digit |
//! | `Cause`, `causes` | an atom with its choices; the causes of clauses in an edition |
//! | `settings`, `every_setting` | how many settings causes have; the digits of each of them |
//! | `digits`, `parts` | the digits of a setting; what each of them that is not 0 is worth |
//! | `has_explaining_subset` | whether a proper subset explains, by trying each of them |
//! | `minimal` | the minimal settings, by this and by what explains below each setting |

use crate::case::{Body, Clause};

/// The most settings of a case.
pub const SETTINGS: u128 = 59_049;

/// Which atoms are causes: those that head no clause, in the second edition also those whose clauses are all
/// assumptions.
#[derive(Clone, Copy, PartialEq, Debug, Default)]
pub enum Edition {
    #[default]
    First = 1,
    Second = 2,
}

/// Every edition, in the order of the numbers.
pub const EDITIONS: [Edition; 2] = [Edition::First, Edition::Second];

/// What a set gives a cause.
#[derive(Clone, Copy, PartialEq, Debug)]
pub enum Choice {
    Nothing,
    Fact,
    Assumption,
    Both,
}

/// The choices of a cause without clauses.
pub const THREE: &[Choice] = &[Choice::Nothing, Choice::Fact, Choice::Assumption];

/// The choices of a cause whose clauses are all assumptions.
pub const TWO: &[Choice] = &[Choice::Nothing, Choice::Fact];

/// What a set, of which some are no settings, may give a cause without clauses.
const FOUR: &[Choice] = &[Choice::Nothing, Choice::Fact, Choice::Assumption, Choice::Both];

/// A cause: its atom, and what a setting may give it, by digit.
#[derive(Clone, Copy, PartialEq, Debug)]
pub struct Cause {
    pub atom: usize,
    pub choices: &'static [Choice],
}

impl Edition {
    /// The number of this edition in a record.
    pub fn number(self) -> u64 {
        self as u64
    }

    /// The edition with the number `number`, if there is one.
    pub fn of(number: u64) -> Option<Edition> {
        EDITIONS.into_iter().find(|edition| edition.number() == number)
    }
}

impl Choice {
    /// The bodies that this choice gives its cause.
    pub fn bodies(self) -> Vec<Body> {
        match self {
            Choice::Nothing => vec![],
            Choice::Fact => vec![Body::True],
            Choice::Assumption => vec![Body::False],
            Choice::Both => vec![Body::True, Body::False],
        }
    }
}

impl Cause {
    /// This cause with all that a set may give it.
    pub fn in_sets(self) -> Cause {
        Cause { choices: if self.choices.contains(&Choice::Assumption) { FOUR } else { self.choices }, ..self }
    }
}

/// The causes among the first `atoms` atoms where these have the clauses `clauses`, in atom order.
pub fn causes(edition: Edition, atoms: usize, clauses: &[Clause]) -> Vec<Cause> {
    let choices = |atom: usize| {
        let mut bodies = clauses.iter().filter(|c| c.head == atom).map(|c| &c.body).peekable();
        match bodies.peek() {
            None => Some(THREE),
            Some(_) if edition == Edition::First => None,
            Some(_) => bodies.all(|body| matches!(body, Body::False)).then_some(TWO),
        }
    };
    (0..atoms).filter_map(|atom| Some(Cause { atom, choices: choices(atom)? })).collect()
}

/// The number of settings of `causes`: the product of the numbers of their choices.
pub fn settings(causes: &[Cause]) -> u128 {
    causes.iter().map(|cause| cause.choices.len() as u128).product()
}

/// The digits of the setting `s` of `causes`, lowest first, each to the base of its cause's choices.
pub fn digits(s: usize, causes: &[Cause]) -> Vec<usize> {
    let digit = |rest: &mut usize, cause: &Cause| {
        let digit = *rest % cause.choices.len();
        *rest /= cause.choices.len();
        Some(digit)
    };
    causes.iter().scan(s, digit).collect()
}

/// The digits of every setting of `causes`, by number: with each further cause those before it, once for each of its
/// choices.
///
/// Panics if a setting has other digits by its number.
pub fn every_setting(causes: &[Cause]) -> Vec<Vec<usize>> {
    let all = causes.iter().fold(vec![Vec::new()], |lower, cause| {
        let with = |digit: usize| lower.iter().map(move |before| [before.as_slice(), &[digit]].concat());
        (0..cause.choices.len()).flat_map(with).collect()
    });
    assert!(all.iter().enumerate().all(|(s, by_cause)| digits(s, causes) == *by_cause), "a setting has other digits");
    all
}

/// What the digits of the setting `s` of `causes` that are not 0 are worth, lowest first; their sum is `s`.
pub fn parts(s: usize, causes: &[Cause]) -> Vec<usize> {
    let weights = causes.iter().scan(1, |weight, cause| {
        let own = *weight;
        *weight *= cause.choices.len();
        Some(own)
    });
    digits(s, causes).into_iter().zip(weights).map(|(digit, weight)| digit * weight).filter(|part| *part > 0).collect()
}

/// Whether some proper subset of the setting `s` of `causes` explains, by trying each of them.
pub fn has_explaining_subset(s: usize, causes: &[Cause], explains: &[bool]) -> bool {
    let parts = parts(s, causes);
    (1usize..1 << parts.len()).any(|dropped| {
        let without: usize = parts.iter().enumerate().filter(|(i, _)| dropped >> i & 1 == 1).map(|(_, p)| p).sum();
        explains[s - without]
    })
}

/// The settings of `causes` that explain and have no proper subset that does, in rising order.
///
/// Panics if these are others by what explains at or below the settings with one digit less.
pub fn minimal(causes: &[Cause], explains: &[bool]) -> Vec<usize> {
    let every = || (0..explains.len()).filter(|s| explains[*s]);
    let found: Vec<usize> = every().filter(|s| !has_explaining_subset(*s, causes, explains)).collect();
    let mut at_or_below: Vec<bool> = Vec::new();
    let mut lowest = Vec::new();
    for (s, explains) in explains.iter().enumerate() {
        let below = parts(s, causes).into_iter().any(|part| at_or_below[s - part]);
        at_or_below.push(*explains || below);
        lowest.extend((*explains && !below).then_some(s));
    }
    assert!(found == lowest, "the minimal settings are others by the settings with one digit less");
    found
}
