//! What an inspection costs: the price that a cost line gives, what each setting costs, the cheapest explanation.
//!
//! From: document 02, [7], [10].
//!
//! | name | meaning |
//! |---|---|
//! | `price` | the price of a cause, its supplement rounded |
//! | `cost` | what a setting costs |
//! | `costs` | what every setting costs, by number |
//! | `Cheapest` | a cost and the setting that has it |
//! | `cheapest` | the lowest cost among the minimal explanations, and the lowest-numbered one that has it |

use crate::cause::{digits, Cause};

/// The price of `cents` with a supplement of `per_cent`, which is rounded to the nearest cent, half a cent upwards.
///
/// Panics if another number of cents is nearer, or as near and higher.
pub fn price(cents: u64, per_cent: u64) -> u64 {
    let hundredths = cents * per_cent;
    let supplement = hundredths / 100 + u64::from(hundredths % 100 >= 50);
    let distance = |other: u64| (100 * other).abs_diff(hundredths);
    let is_nearest = supplement == 0 || distance(supplement) <= distance(supplement - 1);
    assert!(is_nearest && distance(supplement) < distance(supplement + 1), "a supplement is not the nearest");
    cents + supplement
}

/// What the setting `s` of `causes` costs where `prices` are theirs: the sum for all that it gives something.
pub fn cost(s: usize, causes: &[Cause], prices: &[u64]) -> u64 {
    prices.iter().zip(digits(s, causes)).filter(|(_, digit)| *digit > 0).map(|(price, _)| price).sum()
}

/// What every setting of `causes` costs where `prices` are theirs: with each further cause the settings before it, then
/// for each further choice the same with its price added.
fn costs(causes: &[Cause], prices: &[u64]) -> Vec<u64> {
    causes.iter().zip(prices).fold(vec![0], |lower, (cause, price)| {
        let dearer: Vec<u64> = lower.iter().map(|cost| cost + price).collect();
        [lower, dearer.repeat(cause.choices.len() - 1)].concat()
    })
}

/// A cost, and the setting that has it.
#[derive(Clone, Copy, PartialEq, Debug, Default)]
pub struct Cheapest {
    pub cost: u64,
    pub setting: usize,
}

/// The lowest cost among the settings `minimal` of `causes`, whose prices are `prices`, and the lowest-numbered of them
/// that has it, both 0 if there is none.
///
/// Panics if some setting in `explains` costs less, or is not the first of those that cost as little.
pub fn cheapest(minimal: &[usize], explains: &[bool], causes: &[Cause], prices: &[u64]) -> Cheapest {
    let mut ranked: Vec<(u64, usize)> = minimal.iter().map(|s| (cost(*s, causes, prices), *s)).collect();
    ranked.sort();
    let found =
        ranked.first().map_or(Cheapest::default(), |(cost, setting)| Cheapest { cost: *cost, setting: *setting });
    let all = costs(causes, prices);
    let explaining = || (0..all.len()).filter(|s| explains[*s]);
    assert!(explaining().all(|s| all[s] >= found.cost), "an explanation costs less than the cheapest minimal one");
    let first = explaining().find(|s| all[*s] == found.cost);
    assert!(first.unwrap_or(0) == found.setting, "the cheapest is not the first explanation of its cost");
    found
}
