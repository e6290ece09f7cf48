//! What the program `layers` should write for a file: a refusal and numbers byte for byte, a ring by its properties.
//!
//! From: document 02, [3]; tests/README.md.

use crate::case::Case;
use crate::compare::{differing, shown};
use crate::file::{read, Refusal};
use crate::layers::{dependence, is_ring, numbers, rings, turned, Dependence};
use crate::plain::Answered;

/// The most atoms of a case of which every list of atoms is gone through.
const TRIED_ATOMS: usize = 4;

/// A case that was read, what depends on what in it, and the least numbers if there are any.
pub struct Layering {
    pub case: Case,
    pub dependence: Dependence,
    pub numbers: Option<Vec<u64>>,
}

/// Holds what is said to be a ring to the rings that are found by following bodies, and these to the numbers, over all
/// lists of atoms, and of one that the case has not, up to a length that no ring has.
///
/// Panics if they differ.
fn hold(dependence: &Dependence, numbers: Option<&Vec<u64>>) {
    let found = rings(dependence);
    assert!(found.is_empty() == numbers.is_some(), "there are rings beside numbers, or neither");
    let mut lists: Vec<Vec<usize>> = vec![Vec::new()];
    for _ in 0..=dependence.len() {
        let longer = |list: &Vec<usize>| (0..=dependence.len()).map(|a| [&list[..], &[a]].concat()).collect::<Vec<_>>();
        lists = lists.iter().flat_map(longer).chain([Vec::new()]).collect();
    }
    for list in &lists {
        assert!(is_ring(dependence, list) == found.contains(&turned(list)), "a ring is none of those found");
    }
}

/// What the file `bytes` should get.
pub fn layering(bytes: &[u8]) -> Result<Layering, Refusal> {
    let case = read(bytes)?;
    let dependence = dependence(&case);
    let numbers = numbers(&dependence);
    if dependence.len() <= TRIED_ATOMS {
        hold(&dependence, numbers.as_ref());
    }
    Ok(Layering { case, dependence, numbers })
}

/// The lines that tell `numbers`, with atoms named by `names`.
fn numbers_text(names: &[String], numbers: &[u64]) -> String {
    let lines: String = names.iter().zip(numbers).map(|(name, n)| format!("(layer {name} {n})\n")).collect();
    format!("(layered)\n{lines}")
}

/// The atoms that the one line of `text` names, if it is a line that tells a ring.
fn told_atoms(names: &[String], text: &[u8]) -> Option<Vec<usize>> {
    let line = std::str::from_utf8(text).ok()?.strip_prefix("(ring ")?.strip_suffix(")\n")?;
    line.split(' ').map(|word| names.iter().position(|name| name == word)).collect()
}

/// The answer that `text` tells where `own` is what the file should get, or the complaint that it is another.
pub fn told(own: &Result<Layering, Refusal>, text: &[u8]) -> Result<Answered, String> {
    let exactly = |due: String, answer| differing("evaluator", due.as_bytes(), text).map_or(Ok(answer), Err);
    match own {
        Err(refusal) => exactly(format!("(refused {} {})\n", refusal.number, refusal.line), Answered::Unread(*refusal)),
        Ok(Layering { case, numbers: Some(numbers), .. }) => {
            exactly(numbers_text(&case.names, numbers), Answered::Layered(numbers.clone()))
        }
        Ok(Layering { case, dependence, numbers: None }) => {
            let atoms = told_atoms(&case.names, text).filter(|atoms| is_ring(dependence, atoms));
            let complaint = || format!("evaluator: there is no numbering, and no ring is told by {}", shown(text));
            atoms.map(|ring| Answered::Rings(vec![ring])).ok_or_else(complaint)
        }
    }
}
