//! Every list of a few calls of two visits on one cell, after both have begun. Such a list shows most
//! errors in who holds what, and shows them shortly.

use crate::bench::{Bench, Failure};
use crate::steps::*;

const CALLS: usize = 13;

/// The number of lists of four calls, and, for five, of those and the lists of five. Shorter lists
/// are the beginnings of these.
pub const fn lists(length: u32) -> u64 {
    let four = (CALLS as u64).pow(4);
    if length == 4 {
        four
    } else {
        four + four * CALLS as u64
    }
}

fn call(index: usize) -> Step {
    [
        change(1, 0, -200),
        change(2, 0, 1_000),
        hand_over(1, 2, 0),
        hand_over(2, 1, 0),
        hand_over_all(1, 2),
        hand_over_all(2, 1),
        commit(1),
        commit(2),
        abort(1),
        abort(2),
        flush(0),
        force(),
        open(None),
    ][index]
        .clone()
}

/// The digits of the seed are the list.
pub fn play(bench: &mut Bench, seed: u64) -> Result<(), Failure> {
    let (length, mut rest) = match seed.checked_sub(lists(4)) {
        None => (4, seed as usize),
        Some(beyond) => (5, beyond as usize),
    };
    let mut steps = vec![open(None), begin(), begin()];
    for _ in 0..length {
        steps.push(call(rest % CALLS));
        rest /= CALLS;
    }
    steps.extend([open(None), read(0), open(Some(0))]);
    bench.case(|arena| arena.steps(&steps))?;
    Ok(())
}
