//! Which atoms depend on which: the least numbers of a layered case, and the rings of a case that is not.
//!
//! From: document 02, [3]; document 003, acyclic programs and level mappings.
//!
//! | name | meaning |
//! |---|---|
//! | `Dependence` | for each atom the atoms that its bodies name, plain or negated |
//! | `dependence` | that of a case |
//! | `numbers` | the least number of each atom, none where there is no numbering |
//! | `is_ring` | whether a list of atoms is a ring |
//! | `turned` | a ring from its smallest atom on |
//! | `rings` | all rings, each from its smallest atom on |

use crate::case::{Body, Case};

/// For each atom the atoms that the bodies of its clauses name, ascending, each once.
pub type Dependence = Vec<Vec<usize>>;

/// The atoms that `body` names.
fn named(body: &Body) -> Vec<usize> {
    match body {
        Body::True | Body::False => Vec::new(),
        Body::All(literals) => literals.iter().map(|l| l.atom).collect(),
    }
}

/// For each atom of `case` the atoms that the bodies of its clauses name.
pub fn dependence(case: &Case) -> Dependence {
    let of = |atom| {
        let mut atoms: Vec<usize> =
            case.clauses.iter().filter(|c| c.head == atom).flat_map(|c| named(&c.body)).collect();
        atoms.sort_unstable();
        atoms.dedup();
        atoms
    };
    (0..case.names.len()).map(of).collect()
}

/// A search from atoms to those in their bodies: the numbers found, and the way to the atom that is looked at.
struct Search<'a> {
    dependence: &'a Dependence,
    found: Vec<Option<u64>>,
    way: Vec<usize>,
}

impl Search<'_> {
    /// The length of the longest way from `atom` on, or the ring that it runs into.
    fn longest(&mut self, atom: usize) -> Result<u64, Vec<usize>> {
        if let Some(number) = self.found[atom] {
            return Ok(number);
        }
        if let Some(at) = self.way.iter().position(|a| *a == atom) {
            return Err(self.way[at..].to_vec());
        }
        self.way.push(atom);
        let mut number = 0;
        for next in &self.dependence[atom] {
            number = number.max(1 + self.longest(*next)?);
        }
        self.way.pop();
        self.found[atom] = Some(number);
        Ok(number)
    }
}

/// Whether `numbers` is a numbering and no atom can have a lower number: each head's number is greater than that of
/// every atom in its bodies, and is 0 or one more than that of some atom in them.
fn is_least(dependence: &Dependence, numbers: &[u64]) -> bool {
    numbers.iter().zip(dependence).all(|(number, atoms)| {
        let is_met = *number == 0 || atoms.iter().any(|a| numbers[*a] + 1 == *number);
        is_met && atoms.iter().all(|a| numbers[*a] < *number)
    })
}

/// The least number of each atom, none where there is no numbering.
///
/// Panics if the numbers found are not the least ones, or if none are found and the reason is no ring.
pub fn numbers(dependence: &Dependence) -> Option<Vec<u64>> {
    let mut search = Search { dependence, found: vec![None; dependence.len()], way: Vec::new() };
    match (0..dependence.len()).map(|atom| search.longest(atom)).collect::<Result<Vec<u64>, _>>() {
        Ok(found) => {
            assert!(is_least(dependence, &found), "the numbers are not the least ones");
            Some(found)
        }
        Err(ring) => {
            assert!(is_ring(dependence, &ring), "no numbers are found, and no ring");
            None
        }
    }
}

/// Whether `atoms` is a ring: not empty, its atoms distinct, each named in a body of the one before and the first in a
/// body of the last.
pub fn is_ring(dependence: &Dependence, atoms: &[usize]) -> bool {
    let names = |head: &usize, atom| dependence.get(*head).is_some_and(|named| named.contains(atom));
    let is_closed = atoms.iter().zip(atoms.iter().cycle().skip(1)).all(|(head, atom)| names(head, atom));
    let are_distinct = atoms.iter().enumerate().all(|(at, atom)| !atoms[..at].contains(atom));
    !atoms.is_empty() && is_closed && are_distinct
}

/// The ring `atoms` from its smallest atom on.
pub fn turned(atoms: &[usize]) -> Vec<usize> {
    let mut turned = atoms.to_vec();
    if let Some(smallest) = (0..atoms.len()).min_by_key(|at| atoms[*at]) {
        turned.rotate_left(smallest);
    }
    turned
}

/// All rings, each from its smallest atom on, in ascending order. There may be very many: this is for small files.
pub fn rings(dependence: &Dependence) -> Vec<Vec<usize>> {
    let mut found = Vec::new();
    for first in 0..dependence.len() {
        follow(dependence, &mut vec![first], &mut found);
    }
    found
}

/// Adds to `found` the rings that begin with `way` and have no atom smaller than its first.
fn follow(dependence: &Dependence, way: &mut Vec<usize>, found: &mut Vec<Vec<usize>>) {
    for next in &dependence[way[way.len() - 1]] {
        if *next == way[0] {
            found.push(way.clone());
        } else if *next > way[0] && !way.contains(next) {
            way.push(*next);
            follow(dependence, way, found);
            way.pop();
        }
    }
}
