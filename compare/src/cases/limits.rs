//! Random sessions that go to the limits of document 01, a full log and 64 scopes, and sessions of several
//! hundred visits (document 02, request L7).

use super::sessions::{formatted, fuse, habits, next_call, session, work, Habits};
use crate::bench::{Bench, Failure};
use crate::prng::Rng;
use crate::steps::Step;

/// Few visits end, so that the log fills up with changes and their reserve; then the visits take turns
/// at the last rows, and end.
pub fn full_log(bench: &mut Bench, seed: u64) -> Result<(), Failure> {
    let rng = &mut Rng::new(seed);
    bench.case(|arena| {
        arena.step(Step::Format(formatted(rng)))?;
        let mut habits = Habits { odd: 200, visits: rng.pick(&[2, 5, 16]), ..habits(rng) };
        // So few cells that the scopes suffice.
        let most_cells = 60 / habits.visits;
        habits.cells.truncate(most_cells);
        let (hand_overs, commits) = [(6, 1), (1, 0)][seed as usize % 2];
        if hand_overs > 1 {
            // With these the hand-overs use up the scopes, and most changes grow one.
            habits.cells = (0..most_cells as u8).collect();
        }
        habits.weights = [4, 100, hand_overs, 0, commits, 0, 1, 1, 1];
        session(rng, arena, &habits, None, 300)?;
        arena.step(Step::Open(None))?;
        let mut refused = 0;
        for _ in 0..3_500 {
            let call = next_call(rng, &habits, arena.ledger());
            refused += usize::from(arena.step(Step::Call(call))?.number == 8);
            if refused == 6 {
                break;
            }
        }
        habits.weights = [10, 10, 60, 10, 0, 0, 1, 1, 1];
        work(rng, arena, &habits, 40)?;
        habits.weights = [10, 30, 30, 15, 3, 3, 1, 1, 1];
        work(rng, arena, &habits, 60)?;
        for _ in 0..2 {
            let fuse = fuse(rng);
            session(rng, arena, &habits, fuse, 30)?;
        }
        arena.step(Step::Open(None))?;
        Ok(())
    })?;
    Ok(())
}

/// Short visits, one after the other and side by side, so many that their numbers have high bytes, and cuts
/// among them.
pub fn many_visits(bench: &mut Bench, seed: u64) -> Result<(), Failure> {
    let rng = &mut Rng::new(seed);
    bench.case(|arena| {
        arena.step(Step::Format(formatted(rng)))?;
        let mut habits =
            Habits { weights: [30, 15, 15, 5, 12, 12, 1, 1, 1], visits: 16, ..habits(rng) };
        for _ in 0..3 {
            session(rng, arena, &habits, None, 500)?;
            habits.weights = [30, 10, 10, 4, 6, 6, 1, 1, 1];
        }
        for _ in 0..12 {
            let fuse = Some(rng.below(60) as u32);
            session(rng, arena, &habits, fuse, 60)?;
        }
        arena.step(Step::Open(None))?;
        Ok(())
    })?;
    Ok(())
}

/// Many cells and many hand-overs, so that scopes are always short.
pub fn all_scopes(bench: &mut Bench, seed: u64) -> Result<(), Failure> {
    let rng = &mut Rng::new(seed);
    bench.case(|arena| {
        arena.step(Step::Format(formatted(rng)))?;
        let few = rng.pick(&[1, 3, 9]);
        let mut habits = habits(rng);
        habits.cells = match rng.below(3) {
            0 => vec![rng.pick(&[0, 223])],
            1 => (60..60 + few * 3).collect(),
            _ => (0..224).collect(),
        };
        habits.visits = rng.pick(&[2, 4, 16]);
        habits.weights = [10, 60, 30, rng.pick(&[0, 1, 8]), 1, 1, 1, 1, 1];
        for _ in 0..3 {
            let fuse = fuse(rng);
            session(rng, arena, &habits, fuse, 260)?;
        }
        arena.step(Step::Open(None))?;
        Ok(())
    })?;
    Ok(())
}
