//! Which lines of a clause file are asked for.

use crate::random::Random;

/// How many.
pub const LINES: usize = 10_000;
const SEED: u64 = 1;

/// Line numbers by chance, from 1 to the last.
pub fn numbers(last: usize) -> impl Iterator<Item = usize> {
    let mut random = Random::new(SEED);
    (0..LINES).map(move |_| random.within(1, last))
}
