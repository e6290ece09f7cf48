//! Cost lines for generated files: prices of which few are different, so that costs are often equal, supplements that
//! end in half a cent or next to it, any price, and the limits.

use crate::cost;
use crate::file::{CENTS, PER_CENT};
use crate::form::DIGITS;
use crate::random::Random;

/// Cents with a supplement in per cent, at a limit of one, of both, or of the price worked out.
const AT_LIMITS: [(usize, usize); 8] = [
    (CENTS as usize / 2, PER_CENT as usize),
    (CENTS as usize, 0),
    (CENTS as usize - 1, 0),
    (0, PER_CENT as usize),
    (1, PER_CENT as usize),
    (1, 1),
    (1_333_333, 50),
    (1_980_198, 1),
];

/// The most cents of which the price with a supplement of `per_cent` is not over the limit.
pub fn most_cents(per_cent: usize) -> usize {
    let mut cents = 100 * CENTS / (100 + per_cent as u64) + 1;
    while cost::price(cents, per_cent as u64) > CENTS {
        cents -= 1;
    }
    cents as usize
}

/// An odd number below `2 * n`.
fn odd(random: &mut Random, n: usize) -> usize {
    2 * random.below(n) + 1
}

/// Cents with a supplement in per cent, of a drawn kind.
fn price(random: &mut Random) -> (usize, usize) {
    match random.below(8) {
        0 => (random.below(3), 0),
        1 | 2 => (100 * random.between(1, 3), *random.pick(&[0, 0, 50, 100])),
        3 => (50 * odd(random, 60), odd(random, 50)),
        4 => (odd(random, 200), 50),
        5 => (100 * random.below(30) + *random.pick(&[49, 51]), 1),
        6 => *random.pick(&AT_LIMITS),
        _ => {
            let per_cent = random.between(0, PER_CENT as usize);
            (random.between(0, most_cents(per_cent)), per_cent)
        }
    }
}

/// The digits of `n`, now and then with zeros before them.
pub fn number(random: &mut Random, n: usize) -> String {
    let width = if random.chance(15) { random.between(1, DIGITS) } else { 1 };
    format!("{n:0width$}")
}

/// A cost line of `name`.
pub fn cost_line(random: &mut Random, name: &str) -> String {
    let (cents, per_cent) = price(random);
    format!("(cost {name} {} {})", number(random, cents), number(random, per_cent))
}

/// Cost lines of some of `names`, of all or of none, in their order.
pub fn cost_lines(random: &mut Random, names: &[String]) -> Vec<String> {
    let percent = *random.pick(&[0, 0, 30, 70, 100]);
    let mut lines = Vec::new();
    for name in names {
        if random.chance(percent) {
            lines.push(cost_line(random, name));
        }
    }
    lines
}
