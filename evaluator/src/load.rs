//! A repeatable load: a case file whose clauses are drawn.
//!
//! From: document 02, [11].
//!
//! | name | meaning |
//! |---|---|
//! | `Load` | a seed, a number of atoms and a number of clauses |
//! | `Drawing`, `DRAWING` | how a clause is drawn; as the document says |
//! | `Manner`, `MANNER` | how a load is made; as the document says |
//! | `Load::text_by` | the text of a load in a manner |
//! | `generated` | the text of a load for an output of some bytes, or the number of the refusal |
//! | `load_text` | what the program `load` should write |

use crate::case::{Body, Case, Clause};
use crate::cause::Edition;
use crate::file::{read, read_by, Refusal, Rules, RULES};
use crate::formula::{Formula, Literal};
use crate::load_draws::{do_agree, draws, next, state_behind};
use crate::writing::{joined, lines, Way, WAY};
use std::collections::BTreeSet;
use std::slice::Iter;

/// The most atoms and the most clauses of a load.
pub const LOAD_ATOMS: u64 = 64;
pub const LOAD_CLAUSES: u64 = 256;

/// The causes of three choices that a file may have.
pub const LOAD_CAUSES: usize = 10;

/// The most draws that a clause takes in any manner.
const CLAUSE_DRAWS: usize = 16;

/// What a load is generated from.
#[derive(Clone, Copy, Debug)]
pub struct Load {
    pub seed: u32,
    pub atoms: u64,
    pub clauses: u64,
}

/// How a clause is drawn.
#[derive(Clone, Copy)]
pub struct Drawing {
    /// Whether the kind is drawn before the head.
    pub kind_first: bool,
    /// The number of kinds, that of a fact, and that of an assumption.
    pub kinds: u64,
    pub fact: u64,
    pub assumption: u64,
    /// Whether a number of literals is drawn for every kind.
    pub always_counts: bool,
    /// The fewest literals, and how many numbers of literals there are.
    pub fewest: u64,
    pub counts: u64,
    /// Whether the sign of a literal is drawn before its atom, or all signs of a body behind all atoms.
    pub sign_first: bool,
    pub signs_last: bool,
    /// What the sign of a negated literal leaves when halved.
    pub negated: u64,
    /// Whether the draws of each clause begin with the first.
    pub begins_anew: bool,
}

/// The drawing of the document.
pub const DRAWING: Drawing = Drawing {
    kind_first: false,
    kinds: 8,
    fact: 0,
    assumption: 1,
    always_counts: false,
    fewest: 1,
    counts: 3,
    sign_first: false,
    signs_last: false,
    negated: 1,
    begins_anew: false,
};

/// How a load is made: the state that a seed is, the state that a draw puts for another, what a draw yields by the states
/// before and behind it, how a clause is drawn, the name of an atom, which of so many atoms is asked for, and how the
/// case is written.
pub struct Manner {
    pub state: fn(u64) -> u64,
    pub next: fn(u64) -> u64,
    pub yields: fn(u64, u64) -> u64,
    pub drawing: Drawing,
    pub name: fn(usize) -> String,
    pub query: fn(usize) -> usize,
    pub way: Way,
}

/// The manner of the document.
pub const MANNER: Manner = Manner {
    state: |seed| seed,
    next,
    yields: |_, new| new / 65_536,
    drawing: DRAWING,
    name: |atom| format!("a{atom}"),
    query: |_| 0,
    way: LOAD_WAY,
};

/// How the case of a load is written: as others are, but with the literals of a body as they were drawn.
pub const LOAD_WAY: Way = Way { body: <[_]>::to_vec, ..WAY };

impl Drawing {
    /// The literals of a body with `count` of them, over `atoms` atoms.
    fn body(&self, draws: &mut Iter<u64>, atoms: u64, count: u64) -> Vec<Literal<usize>> {
        let mut draw = || *draws.next().expect("draws for every clause");
        let is_negated = |sign: u64| sign % 2 == self.negated;
        if self.signs_last {
            let named: Vec<u64> = (0..count).map(|_| draw() % atoms).collect();
            return named.iter().map(|a| Literal { atom: *a as usize, negated: is_negated(draw()) }).collect();
        }
        let literal = |_| {
            let (one, other) = (draw(), draw());
            let (atom, sign) = if self.sign_first { (other, one) } else { (one, other) };
            Literal { atom: (atom % atoms) as usize, negated: is_negated(sign) }
        };
        (0..count).map(literal).collect()
    }

    /// The clause over `atoms` atoms that the next of `draws` give.
    fn clause(&self, draws: &mut Iter<u64>, atoms: u64) -> Clause {
        let mut draw = || *draws.next().expect("draws for every clause");
        let (one, other) = (draw(), draw());
        let (head, kind) = if self.kind_first { (other, one) } else { (one, other) };
        let kind = kind % self.kinds;
        let is_rule = kind != self.fact && kind != self.assumption;
        let count = if is_rule || self.always_counts { self.fewest + draw() % self.counts } else { 0 };
        let body = match is_rule {
            true => Body::All(self.body(draws, atoms, count)),
            false if kind == self.fact => Body::True,
            false => Body::False,
        };
        Clause { head: (head % atoms) as usize, body }
    }
}

impl Load {
    /// Whether there is such a load.
    pub fn is_in_range(&self) -> bool {
        (1..=LOAD_ATOMS).contains(&self.atoms) && self.clauses <= LOAD_CLAUSES
    }

    /// The clauses of this load, which is in range, in the manner `manner`: all draws are made first.
    fn drawn(&self, manner: &Manner) -> Vec<Clause> {
        let start = (manner.state)(u64::from(self.seed));
        let all = draws(start, CLAUSE_DRAWS * self.clauses as usize, manner.next, manner.yields);
        let mut left = all.iter();
        let clause = |_| {
            if manner.drawing.begins_anew {
                left = all.iter();
            }
            manner.drawing.clause(&mut left, self.atoms)
        };
        (0..self.clauses).map(clause).collect()
    }

    /// The text of this load, which is in range, in the manner `manner`.
    pub fn text_by(&self, manner: &Manner) -> String {
        let atoms = self.atoms as usize;
        let case = Case {
            names: (0..atoms).map(manner.name).collect(),
            clauses: self.drawn(manner),
            constraints: Vec::new(),
            observations: Vec::new(),
            queries: vec![Formula::Atom((manner.query)(atoms))],
            prices: vec![0; atoms],
            edition: Edition::First,
        };
        joined(&lines(&manner.way, &case))
    }

    /// The text of this load, which is in range.
    ///
    /// Panics if the text does not lead back to the draws.
    pub fn text(&self) -> String {
        let text = self.text_by(&MANNER);
        self.hold(&text);
        text
    }

    /// How many atoms of this load, which is in range, head no clause.
    pub fn causes(&self) -> usize {
        let heads: BTreeSet<usize> = self.drawn(&MANNER).iter().map(|clause| clause.head).collect();
        self.atoms as usize - heads.len()
    }

    /// Holds `text` to the draws the other way round: read where causes have no limit, each part of each clause must be
    /// what its draw says, the state of which is found by the number of draws before it. Reading refuses it exactly if
    /// it has too many causes.
    ///
    /// Panics if it is not so.
    fn hold(&self, text: &str) {
        let rules = Rules { are_too_many: |_| false, ..RULES };
        let case = read_by(&rules, text.as_bytes()).unwrap_or_else(|r| panic!("a load gets {}", r.number));
        let mut taken = 0;
        let mut draw = |below: u64| {
            taken += 1;
            ((state_behind(u64::from(self.seed), taken) >> 16) % below) as usize
        };
        for clause in &case.clauses {
            assert!(clause.head == draw(self.atoms), "a head is another");
            match (draw(8), &clause.body) {
                (0, Body::True) | (1, Body::False) => (),
                (2.., Body::All(body)) => {
                    assert!(body.len() == 1 + draw(3), "the number of literals is another");
                    for literal in body {
                        assert!(literal.atom == draw(self.atoms), "a literal's atom is another");
                        assert!(literal.negated == (draw(2) == 1), "a literal's sign is another");
                    }
                }
                _ => panic!("a kind is another"),
            }
        }
        assert!(do_agree(u64::from(self.seed), taken), "the states are others by the number of draws");
        assert!(case.clauses.len() as u64 == self.clauses, "the number of clauses is another");
        assert!(matches!(case.queries.as_slice(), [Formula::Atom(0)]), "the query is another");
        let names: Vec<String> = (0..self.atoms).map(|i| format!("a{i}")).collect();
        assert!(case.names == names, "the names are others");
        let due = (self.causes() > LOAD_CAUSES).then_some(Refusal { number: 12, line: 0 });
        assert!(read(text.as_bytes()).err() == due, "reading a load refuses it for something else than its causes");
    }
}

/// The text of `load` for an output of `room` bytes, or the number of the refusal.
///
/// Panics if the text does not lead back to the draws.
pub fn generated(load: &Load, room: usize) -> Result<String, u32> {
    if !load.is_in_range() {
        return Err(22);
    }
    let text = load.text();
    if text.len() > room {
        return Err(23);
    }
    Ok(text)
}

/// What the program `load` should write for `load`.
pub fn load_text(load: &Load) -> String {
    generated(load, usize::MAX).unwrap_or_else(|number| format!("(refused {number} 0)\n"))
}
