//! The states that the draws of a load go through, by two ways.
//!
//! From: document 02, [11].
//!
//! | name | meaning |
//! |---|---|
//! | `STATES`, `next` | the number of states; the state that a draw puts for another |
//! | `draws` | the draws from a state on, one after the other |
//! | `state_behind` | the state behind some draws, at once |
//! | `do_agree` | whether both ways give the same states |

/// The number of states, 2^32; they are the numbers below it.
pub const STATES: u64 = 4_294_967_296;

/// What a draw multiplies a state by, and what it adds.
pub const FACTOR: u64 = 1_664_525;
pub const ADDEND: u64 = 1_013_904_223;

/// The state that a draw puts for `state`: what the exact product and sum leave when divided.
pub fn next(state: u64) -> u64 {
    let sum = state * FACTOR + ADDEND;
    sum - sum / STATES * STATES
}

/// The first `count` draws from `state` on, where `next` gives the state behind a state, and a draw yields what `yields`
/// makes of the state before it and of the one behind it.
pub fn draws(state: u64, count: usize, next: fn(u64) -> u64, yields: fn(u64, u64) -> u64) -> Vec<u64> {
    let states = std::iter::successors(Some(state), |state| Some(next(*state)));
    let states: Vec<u64> = states.take(count + 1).collect();
    states.windows(2).map(|pair| yields(pair[0], pair[1])).collect()
}

/// The map of states that takes `x` to `factor` × `x` + `addend`, both below `STATES`.
#[derive(Clone, Copy)]
struct Map {
    factor: u64,
    addend: u64,
}

impl Map {
    /// Where the map takes `state`.
    fn of(self, state: u64) -> u64 {
        (self.factor * state + self.addend) % STATES
    }

    /// The map that takes a state where this one takes it, and then where `second` does.
    fn then(self, second: Map) -> Map {
        Map { factor: second.factor * self.factor % STATES, addend: second.of(self.addend) }
    }
}

/// The state behind `count` draws from `state` on, by the map of one draw, squared for each binary digit of `count`.
pub fn state_behind(state: u64, count: u64) -> u64 {
    let mut square = Map { factor: FACTOR, addend: ADDEND };
    let mut all = Map { factor: 1, addend: 0 };
    let mut left = count;
    while left > 0 {
        if left % 2 == 1 {
            all = all.then(square);
        }
        square = square.then(square);
        left /= 2;
    }
    all.of(state)
}

/// Whether both ways give the same states behind 1 to `count` draws from `state` on.
pub fn do_agree(state: u64, count: u64) -> bool {
    let states = draws(state, count as usize, next, |_, new| new);
    states.into_iter().zip(1..).all(|(listed, taken)| listed == state_behind(state, taken))
}
