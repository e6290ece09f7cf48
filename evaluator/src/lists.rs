//! Files whose minimal settings just fill the program's list, just miss it, or overflow it.
//!
//! Ten causes, each with an atom that is true where the cause is decided. A reading that needs nine or all ten of these
//! atoms has one minimal setting for each way to decide so many causes, and costs what these cost.

use crate::families::{constraint, queries};
use crate::file::CAUSES;
use crate::layout::file;
use crate::prices::cost_line;
use crate::random::Random;
use crate::sample::{Due, Sample};

/// The number of kinds.
pub const KINDS: usize = 5;

/// The two causes that are named last in a file of the last kind.
const LAST: [usize; 2] = [3, 7];

/// The names `letter` 0 to 9 but for the numbers in `left_out`, as a body.
fn body(letter: char, left_out: &[usize]) -> String {
    let kept = (0..CAUSES).filter(|i| !left_out.contains(i));
    kept.map(|i| format!("{letter}{i}")).collect::<Vec<_>>().join(" ")
}

/// The lines that make the reading for the kind `kind`: 1,023, 1,024 or 1,025 minimal settings, or 512 for each of 3
/// to 10 rules, in the last kind without those that have two assumptions, which are enough there.
fn rules(random: &mut Random, kind: usize) -> Vec<String> {
    let mut order: Vec<usize> = (0..CAUSES).collect();
    random.shuffle(&mut order);
    let nine = |i: &usize| format!("(if low {})", body('d', &[*i]));
    match kind {
        0 => vec![format!("(if low {})", body('d', &[])), constraint(random, &body('c', &[]))],
        1 => vec![format!("(if low {})", body('d', &[]))],
        2 => {
            let one_more = format!("(if low {})", body('c', &order[2..3]));
            order[..2].iter().map(nine).chain([one_more]).collect()
        }
        3 => {
            let count = random.between(3, CAUSES);
            order[..count].iter().map(nine).collect()
        }
        _ => {
            let two = LAST.map(|i| format!("(not c{i})")).join(" ");
            order[..CAUSES / 2].iter().map(nine).chain([format!("(if low {two})")]).collect()
        }
    }
}

/// The sample of the kind `kind`, 0 to 4; in the last kind the two causes whose assumptions are enough are named last,
/// so that the setting with these two has the highest number; often it is the cheapest.
pub fn list_edge(random: &mut Random, kind: usize) -> Sample {
    let mut lines = rules(random, kind);
    for i in 0..CAUSES {
        lines.extend([format!("(if d{i} c{i})"), format!("(if d{i} (not c{i}))")]);
    }
    random.shuffle(&mut lines);
    lines.sort_by_key(|line| kind == KINDS - 1 && LAST.iter().any(|i| line.contains(&format!("c{i}"))));
    let causes: Vec<String> = (0..CAUSES).map(|i| format!("c{i}")).collect();
    lines.push(String::from("(seen low)"));
    lines.extend(causes.iter().map(|cause| cost_line(random, cause)));
    lines.extend(queries(random, &causes, 3));
    Sample { bytes: file(random, &lines), due: Due::Read }
}
