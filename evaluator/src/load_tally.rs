//! How many calls of `load` are written or refused, what the texts have, and how many would be answered otherwise under a
//! wrong reading of the rules.
//!
//! From: document 02, [11].

use crate::case::{Body, Case};
use crate::file::{read, Refusal};
use crate::formula::Literal;
use crate::load::{Drawing, Load, Manner, DRAWING, LOAD_ATOMS, LOAD_CAUSES, LOAD_CLAUSES, LOAD_WAY, MANNER};
use crate::load_calls::Call;
use crate::load_draws::{next, ADDEND, FACTOR, STATES};
use crate::writing::{Sections, Way, WAY};

/// What reading the text of a load gives.
type Taken = Result<Case, Refusal>;

/// What is counted of a call that is written, with what reading the text gives: the words, and whether it is counted.
type Row = (&'static str, fn(&Load, &Taken) -> bool);

/// A wrong range: the words, and whether there is such a load.
type Misjudged = (&'static str, fn(&Load) -> bool);

/// A wrong manner to make a load: the words, and the manner.
type Misdrawn = (&'static str, Manner);

/// What is counted of calls that are written.
const ROWS: [Row; 12] = [
    ("written", |_, _| true),
    ("read as a case", |_, taken| taken.is_ok()),
    ("refused with 12 when read", |_, taken| taken.as_ref().is_err_and(|refusal| refusal.number == 12)),
    ("10 causes", |load, _| load.causes() == LOAD_CAUSES),
    ("11 causes", |load, _| load.causes() == LOAD_CAUSES + 1),
    ("one atom", |load, _| load.atoms == 1),
    ("64 atoms", |load, _| load.atoms == LOAD_ATOMS),
    ("no clause", |load, _| load.clauses == 0),
    ("256 clauses", |load, _| load.clauses == LOAD_CLAUSES),
    ("a literal twice in a body", |_, taken| some_two(taken, |one, other| one == other)),
    ("an atom plain and negated in a body", |_, taken| {
        some_two(taken, |one, other| one.atom == other.atom && one.negated != other.negated)
    }),
    ("negated before plain in a body", |_, taken| some_two(taken, |one, other| one.negated && !other.negated)),
];

/// The wrong ranges.
const MISJUDGED: [Misjudged; 8] = [
    ("other with 64 atoms refused", |load| load.is_in_range() && load.atoms < LOAD_ATOMS),
    ("other with 65 atoms taken", |load| {
        Load { atoms: load.atoms - u64::from(load.atoms == 65), ..*load }.is_in_range()
    }),
    ("other with no atoms taken", |load| Load { atoms: load.atoms.max(1), ..*load }.is_in_range()),
    ("other with no clause refused", |load| load.is_in_range() && load.clauses > 0),
    ("other with 256 clauses refused", |load| load.is_in_range() && load.clauses < LOAD_CLAUSES),
    ("other with 257 clauses taken", |load| {
        Load { clauses: load.clauses - u64::from(load.clauses == 257), ..*load }.is_in_range()
    }),
    ("other with atoms kept to 32 bits", |load| Load { atoms: load.atoms % STATES, ..*load }.is_in_range()),
    ("other with clauses kept to 32 bits", |load| Load { clauses: load.clauses % STATES, ..*load }.is_in_range()),
];

/// The wrong manners: of states and draws, of clauses and their literals, of the text.
const MISDRAWN: [Misdrawn; 32] = [
    ("other with the old state drawn", Manner { yields: |old, _| old / 65_536, ..MANNER }),
    ("other with the lower half of a state drawn", Manner { yields: |_, new| new % 65_536, ..MANNER }),
    ("other with the whole state drawn", Manner { yields: |_, new| new, ..MANNER }),
    ("other with the upper 15 bits drawn", Manner { yields: |_, new| new / 131_072, ..MANNER }),
    ("other with a state of 31 bits", Manner { next: |state| next(state) % (STATES / 2), ..MANNER }),
    ("other with the addend added first", Manner { next: |state| (state + ADDEND) * FACTOR % STATES, ..MANNER }),
    ("other with a seed of 16 bits", Manner { state: |seed| seed % 65_536, ..MANNER }),
    ("other with a seed of 31 bits", Manner { state: |seed| seed % (STATES / 2), ..MANNER }),
    ("other with a fresh state for each clause", drawn(Drawing { begins_anew: true, ..DRAWING })),
    ("other with the kind before the head", drawn(Drawing { kind_first: true, ..DRAWING })),
    ("other with 4 kinds", drawn(Drawing { kinds: 4, ..DRAWING })),
    ("other with facts and assumptions exchanged", drawn(Drawing { fact: 1, assumption: 0, ..DRAWING })),
    ("other without facts", drawn(Drawing { fact: 8, ..DRAWING })),
    ("other without assumptions", drawn(Drawing { assumption: 8, ..DRAWING })),
    ("other with a number of literals for every kind", drawn(Drawing { always_counts: true, ..DRAWING })),
    ("other with 0 to 2 literals", drawn(Drawing { fewest: 0, ..DRAWING })),
    ("other with 1 to 2 literals", drawn(Drawing { counts: 2, ..DRAWING })),
    ("other with 1 to 4 literals", drawn(Drawing { counts: 4, ..DRAWING })),
    ("other with the sign before the atom", drawn(Drawing { sign_first: true, ..DRAWING })),
    ("other with the signs behind all atoms", drawn(Drawing { signs_last: true, ..DRAWING })),
    ("other with negated ones by even draws", drawn(Drawing { negated: 0, ..DRAWING })),
    ("other without repeated literals", written(Way { body: different, ..LOAD_WAY })),
    ("other with literals as in written cases", written(WAY)),
    ("other with plain literals before negated ones", written(Way { body: plain_first, ..LOAD_WAY })),
    ("other with a space before an inner bracket", written(Way { spaces: |line| String::from(line), ..LOAD_WAY })),
    ("other with a space behind an inner bracket", written(Way { spaces: spaced_behind, ..LOAD_WAY })),
    ("other with names from a1 on", Manner { name: |atom| format!("a{}", atom + 1), ..MANNER }),
    ("other with names of two digits", Manner { name: |atom| format!("a{atom:02}"), ..MANNER }),
    ("other without atom lines", written(Way { order: without_atoms, ..LOAD_WAY })),
    ("other with atom lines behind the clauses", written(Way { order: atoms_behind, ..LOAD_WAY })),
    ("other with the query first", written(Way { order: query_first, ..LOAD_WAY })),
    ("other with a query of the last atom", Manner { query: |atoms| atoms - 1, ..MANNER }),
];

/// The manner of the document with clauses drawn by `drawing`.
const fn drawn(drawing: Drawing) -> Manner {
    Manner { drawing, ..MANNER }
}

/// The manner of the document with cases written in the way `way`.
const fn written(way: Way) -> Manner {
    Manner { way, ..MANNER }
}

/// Whether `holds` holds of two literals of a body, the first of which stands before the second, in a case that is read.
fn some_two(taken: &Taken, holds: fn(&Literal<usize>, &Literal<usize>) -> bool) -> bool {
    let holds_in =
        |body: &[Literal<usize>]| (1..body.len()).any(|at| body[..at].iter().any(|one| holds(one, &body[at])));
    let clauses = taken.as_ref().map_or(&[][..], |case| &case.clauses);
    clauses.iter().any(|clause| matches!(&clause.body, Body::All(body) if holds_in(body)))
}

/// `literals` without those that stand before.
fn different(literals: &[Literal<usize>]) -> Vec<Literal<usize>> {
    let is_new = |at: &usize| !literals[..*at].contains(&literals[*at]);
    (0..literals.len()).filter(is_new).map(|at| literals[at].clone()).collect()
}

/// `literals`, plain ones first, each kind in the order drawn.
fn plain_first(literals: &[Literal<usize>]) -> Vec<Literal<usize>> {
    let mut all = literals.to_vec();
    all.sort_by_key(|literal| literal.negated);
    all
}

/// `line` with a space behind each closing bracket before a word or an opening one.
fn spaced_behind(line: &str) -> String {
    let spaced = (WAY.spaces)(line).replace(')', ") ");
    spaced.replace(") )", "))").trim_end().to_string()
}

/// `sections` without the first.
fn without_atoms(mut sections: Sections) -> Sections {
    sections[0].clear();
    sections
}

/// `sections` with the atoms behind the clauses.
fn atoms_behind(mut sections: Sections) -> Sections {
    sections.swap(0, 2);
    sections
}

/// `sections` with the queries first.
fn query_first(mut sections: Sections) -> Sections {
    sections[..6].rotate_right(1);
    sections
}

/// The words of each thing that is counted; each must occur.
pub fn words() -> impl Iterator<Item = &'static str> {
    let calls = ["refused with 22", "zeros before the numbers"];
    let rows = ROWS.iter().map(|(what, _)| *what);
    let wrong = MISJUDGED.iter().map(|(what, _)| *what).chain(MISDRAWN.iter().map(|(what, _)| *what));
    calls.into_iter().chain(rows).chain(wrong)
}

/// Which of these count `call`, which should get `own`.
pub fn met(call: &Call, own: &Result<String, u32>) -> Vec<bool> {
    let load = &call.load;
    let taken = own.as_ref().ok().map(|text| read(text.as_bytes()));
    let rows = ROWS.iter().map(|(_, holds)| taken.as_ref().is_some_and(|taken| holds(load, taken)));
    let misjudged = MISJUDGED.iter().map(|(_, is_in_range)| is_in_range(load) != load.is_in_range());
    let is_other = |manner: &Manner| own.as_ref().is_ok_and(|text| load.text_by(manner) != *text);
    let misdrawn = MISDRAWN.iter().map(|(_, manner)| is_other(manner));
    [*own == Err(22), call.is_padded].into_iter().chain(rows).chain(misjudged).chain(misdrawn).collect()
}
