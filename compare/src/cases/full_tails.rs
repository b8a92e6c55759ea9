//! Full tails, and power failing while they are stored. As many rows wait as the tail has room for, or
//! one less; then comes one call, which stores them first if it adds a row.

use super::sessions::{formatted, habits, held_cell, holding_visit, next_call, Habits};
use crate::arena::Arena;
use crate::bench::{Bench, Failure};
use crate::prng::Rng;
use crate::steps::{abort, begin, change, commit, flush, force, hand_over, hand_over_all, open, Step};

/// A fuse that no case uses up.
const LONG: u32 = 1_000_000;
/// The calls that come last, and the place of an abort among them.
const CALLS: u64 = 8;
const ABORT: u64 = 4;

pub fn play(bench: &mut Bench, seed: u64) -> Result<(), Failure> {
    let rng = &mut Rng::new(seed);
    // An abort adds as many rows once more.
    let rows =
        if seed % CALLS == ABORT { rng.pick(&[64, 128, 192]) } else { rng.pick(&[63, 64, 64, 64]) };
    let format = Step::Format(formatted(rng));
    // After the begins come changes and hand-overs, none of which stores a row while there is room in the
    // tail. A visit that was handed over whole has to start its scopes anew, so half of the cases do without.
    let whole_visits = [0, 6][(seed / CALLS % 2) as usize];
    let weights = [0, 60, 20, whole_visits, 0, 0, 0, 0, 0];
    let habits = Habits { weights, visits: rng.pick(&[2, 3, 3, 8, 8, 16]), odd: 1_000, ..habits(rng) };
    let ((before, writes), whole) = bench.case(|arena| {
        arena.step(format)?;
        arena.step(open(Some(LONG)))?;
        for _ in 0..habits.visits {
            arena.step(begin())?;
        }
        while arena.ledger().rows.len() < habits.visits + rows {
            let call = next_call(rng, &habits, arena.ledger());
            arena.step(Step::Call(call))?;
        }
        let before = writes(arena);
        arena.step(last(rng, arena, seed))?;
        Ok((before, writes(arena)))
    })?;
    // The first write is the one that fails, the second, the last, some between, and none.
    let mut fuses = vec![before, before + 1, writes.saturating_sub(1), writes];
    fuses.extend((0..6).map(|_| before + rng.below((writes - before + 1) as usize) as u32));
    fuses.sort();
    fuses.dedup();
    for left in fuses {
        let mut cut = whole.clone();
        cut[1] = open(Some(left));
        bench.case(|arena| {
            arena.steps(&cut)?;
            arena.step(open(Some(rng.below(8) as u32)))?;
            arena.step(open(None))?;
            arena.step(begin())?;
            Ok(())
        })?;
    }
    Ok(())
}

/// The stored writes since the opening.
fn writes(arena: &Arena) -> u32 {
    LONG - arena.paper.fuse.unwrap_or(LONG)
}

/// The call after the tail has filled, one after the other with the seed.
fn last(rng: &mut Rng, arena: &Arena, seed: u64) -> Step {
    let ledger = arena.ledger();
    let visit = holding_visit(rng, ledger).unwrap_or_else(|| rng.pick(&ledger.active));
    let other = ledger.active.iter().copied().find(|other| *other != visit).unwrap_or(visit);
    let cell = held_cell(rng, ledger, visit).unwrap_or(0);
    match seed % CALLS {
        0 => begin(),
        1 => change(visit, cell, -200),
        2 => hand_over(visit, other, cell),
        3 => commit(visit),
        ABORT => abort(visit),
        5 => force(),
        6 => hand_over_all(visit, other),
        _ => flush(cell / 7),
    }
}
