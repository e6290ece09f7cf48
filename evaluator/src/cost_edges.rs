//! Files with cost lines at their limits, each limit from both sides.
//!
//! From: document 02, [7], [8].

use crate::edges::{among, Edge};
use crate::file::{ATOMS, CENTS, NAME_BYTES, PER_CENT};
use crate::form::DIGITS;
use crate::names::drawn_name;
use crate::prices::{cost_line, most_cents, number};
use crate::random::Random;
use crate::sample::Sample;

/// Every limit of cost lines.
pub const COST_EDGES: [Edge; 3] = [cost_numbers, cost_count, cost_name];

/// Numbers of a cost line at their limits: a price of 2,000,000 cents, 100 per cent or seven digits, or past one of these.
fn cost_numbers(random: &mut Random, past: usize) -> Sample {
    let per_cent = random.between(0, PER_CENT as usize);
    let most = most_cents(per_cent);
    let cents = random.between(0, most);
    let far = past * *random.pick(&[1, 1, 2, 100]);
    let width = DIGITS + past;
    let (due, numbers) = match random.below(5) {
        0 => (16, format!("{} {}", most + far, number(random, per_cent))),
        4 => (16, format!("{} {}", CENTS as usize + far, number(random, 0))),
        1 => (16, format!("{} {}", number(random, cents / 2), PER_CENT as usize + far)),
        2 => (5, format!("{cents:0width$} {per_cent}")),
        _ => (5, format!("{cents} {per_cent:0width$}")),
    };
    let costs = vec![cost_line(random, "stopped"), format!("(cost shut {numbers})")];
    among(random, costs, past, due)
}

/// One cost line for each of two names, or a second for one of them, often behind a price of 0, now and then too dear.
fn cost_count(random: &mut Random, past: usize) -> Sample {
    let mut costs = vec![cost_line(random, "shut"), cost_line(random, "stopped")];
    if random.chance(40) {
        costs[0] = String::from("(cost shut 0 0)");
    }
    let is_dear = random.chance(35);
    if past == 1 {
        costs.push(if is_dear { String::from("(cost shut 5 101)") } else { cost_line(random, "shut") });
    }
    among(random, costs, past, if is_dear { 16 } else { 17 })
}

/// A cost line with a name of 16 bytes or with the 64th name, or one past either with numbers past theirs as well.
fn cost_name(random: &mut Random, past: usize) -> Sample {
    let cents = CENTS as usize + past;
    if random.chance(50) {
        let name = drawn_name(random, NAME_BYTES + past);
        return among(random, vec![format!("(cost {name} {cents} 0)")], past, 6);
    }
    let mut lines = vec![String::from("(avoid low shut stopped)")];
    lines.extend((4..ATOMS + past).map(|i| format!("(false x{i})")));
    lines.push(format!("(cost x {cents} 0)"));
    among(random, lines, past, 8)
}
