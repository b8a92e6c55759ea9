//! Power failing at every write. A random session is played once with a fuse that is never used up, to
//! count its writes; then again with every shorter fuse, followed by openings that are cut themselves.

use super::sessions::{formatted, habits, next_call};
use crate::arena::{Arena, Outcome};
use crate::bench::{Bench, Failure};
use crate::prng::Rng;
use crate::steps::{begin, Step};

/// A fuse that no case uses up.
const LONG: u32 = 1_000_000;

pub fn play(bench: &mut Bench, seed: u64) -> Result<(), Failure> {
    let rng = &mut Rng::new(seed);
    let format = Step::Format(formatted(rng));
    let mut habits = habits(rng);
    let mut calls = rng.pick(&[6, 20, 60, 120]);
    let mut first = vec![format, Step::Open(Some(LONG))];
    if seed % 4 == 0 {
        // After the begins hardly anything but full tails makes writes, so that changes, hand-overs and
        // aborts are cut. These cases are long, and so they are few: it does not go by chance whether the
        // limits are among them.
        let turn = seed as usize / 4;
        habits.weights = [1, 60, 30, 4, 0, 2, 0, 0, 1];
        habits.visits = [2, 16, 5, 16][turn % 4];
        habits.odd = [10, 1_000, 10][turn % 3];
        if turn % 4 == 1 {
            // As few cells as it takes to use up the scopes, so that they grow too.
            habits.cells = (0..6).map(|index| 31 * index).collect();
        }
        calls = 200;
        first.extend(vec![begin(); habits.visits]);
    }

    let (writes, whole) = bench.case(|arena| {
        arena.steps(&first)?;
        for _ in 0..calls {
            let call = next_call(rng, &habits, arena.ledger());
            arena.step(Step::Call(call))?;
        }
        Ok(LONG - arena.paper.fuse.unwrap_or(LONG))
    })?;

    // The calls are cut at every write, then the opening after them a few times.
    for left in 0..=writes {
        let mut cut = whole.clone();
        cut[1] = Step::Open(Some(left));
        bench.case(|arena| {
            steps_until_closed(arena, &cut)?;
            for _ in 0..rng.below(4) {
                arena.step(Step::Open(Some(rng.below(6) as u32)))?;
            }
            arena.step(Step::Open(None))?;
            arena.step(Step::Open(Some(0)))?;
            arena.step(Step::Open(Some(1)))?;
            arena.step(begin())?;
            Ok(())
        })?;
    }

    // The opening after the whole session is cut at every write.
    let (rows, _) = bench.case(|arena| {
        arena.steps(&whole)?;
        arena.step(Step::Open(None))
    })?;
    for left in 0..=rows.value as u32 {
        bench.case(|arena| {
            arena.steps(&whole)?;
            arena.step(Step::Open(Some(left)))?;
            let call = next_call(rng, &habits, arena.ledger());
            arena.step(Step::Call(call))?;
            arena.step(Step::Open(None))?;
            Ok(())
        })?;
    }
    Ok(())
}

/// Takes the steps, but only a few of them once power has failed.
fn steps_until_closed(arena: &mut Arena, steps: &[Step]) -> Outcome<()> {
    let (start, calls) = steps.split_at(2);
    arena.steps(start)?;
    let mut while_closed = 0;
    for step in calls {
        while_closed += usize::from(!arena.is_open());
        if while_closed > 4 {
            break;
        }
        arena.step(step.clone())?;
    }
    Ok(())
}
