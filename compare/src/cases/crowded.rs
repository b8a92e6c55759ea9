//! Stores that are at several limits of document 01 at once: 16 visits active, 64 scopes in use, no row free
//! beyond the reserve, some of them after many visits. There every call is made with arguments at their
//! limits, so that several conditions of the table of refusals hold at once, and the order of the checks
//! shows.

use super::document::{change_row, row};
use super::sessions::{any_call, formatted, lend};
use crate::arena::{Arena, Outcome};
use crate::bench::{Bench, Failure};
use crate::paper::{Ledger, BEGIN, COMMIT};
use crate::prng::Rng;
use crate::steps::{abort, begin, change, commit, flush, force, hand_over, hand_over_all, open, Step};
use crate::store::{Call, ROWS};

/// What the store comes to before the calls at its limits.
struct Crowd {
    /// Visits that have ended, and visits that are active.
    ended: u16,
    active: u16,
    /// Scopes in use, changes in all, and hand-overs.
    scopes: u16,
    changes: u16,
    hand_overs: u16,
    /// Rows of the visits that have ended.
    rows: usize,
}

/// Each limit is reached by some of the crowds alone and by some with others: visits active, scopes in use,
/// and rows free beyond the reserve. Some visits that are active have numbers above 255.
fn crowd(rng: &mut Rng, seed: u64) -> Crowd {
    let few = rng.pick(&[2, 4, 15]);
    let (used, active, scopes, beyond_reserve) = [
        (120, few, few, 2),
        (300, few, 63, 2),
        (1_000, 16, 64, 1),
        (120, 16, 64, 0),
        (258, few, 64, 1),
        (264, 16, 63, 3_000),
        (600, few, 64, 0),
        (240, few, few, 1),
    ][seed as usize % 8];
    let ended = used - active;
    let changes = scopes + rng.below(8) as u16;
    let hand_overs = rng.below(6) as u16;
    let rows = ROWS - 2 * usize::from(active + changes) - usize::from(hand_overs);
    let rows = rows.saturating_sub(beyond_reserve).max(2 * usize::from(ended));
    Crowd { ended, active, scopes, changes, hand_overs, rows }
}

/// The rows of visits that have committed. The first of them make the changes, each of one cell, as many
/// as it takes to have so many rows.
fn ended_rows(rng: &mut Rng, crowd: &Crowd) -> Vec<[u8; 16]> {
    let mut left = crowd.rows - 2 * usize::from(crowd.ended);
    let mut rows = Vec::with_capacity(crowd.rows);
    for visit in 1..=crowd.ended {
        let changes = left.min(40);
        left -= changes;
        rows.push(row(BEGIN, visit, rows.len() as u16 + 1));
        for _ in 0..changes {
            let amount = rng.below(9) as i16 - 4;
            rows.push(change_row(visit, (visit % 224) as u8, amount, rows.len() as u16 + 1));
        }
        rows.push(row(COMMIT, visit, rows.len() as u16 + 1));
    }
    rows
}

/// Begins the active visits, which start the scopes, grow some of them, and hand some over, the last time all
/// that a visit holds.
fn gather(rng: &mut Rng, arena: &mut Arena, crowd: &Crowd) -> Outcome<()> {
    let first = crowd.ended + 1;
    for _ in 0..crowd.active {
        arena.step(begin())?;
    }
    for index in 0..crowd.changes {
        let scope =
            if index < crowd.scopes { index } else { rng.below(usize::from(crowd.scopes)) as u16 };
        let (visit, cell) = (first + scope % crowd.active, (scope / crowd.active) as u8);
        arena.step(change(visit, cell, rng.below(400) as i16 - 200))?;
    }
    for index in 0..crowd.hand_overs {
        let giver = first + index % crowd.active;
        let receiver = first + (index + 1) % crowd.active;
        let is_last = index + 1 == crowd.hand_overs;
        let step = if is_last { hand_over_all(giver, receiver) } else { hand_over(giver, receiver, 0) };
        arena.step(step)?;
    }
    Ok(())
}

/// A call of visits that are active, have ended, have not begun or differ from an active one by the high
/// byte alone, on cells and pages that are held, not held, the last, or beyond it. `whole` says whether it
/// may hand over a whole visit.
fn limit_call(rng: &mut Rng, crowd: &Crowd, whole: bool) -> Call {
    let (first, last) = (crowd.ended + 1, crowd.ended + crowd.active);
    let mut visit = || rng.pick(&[first, first, last, last, first + 1, 0, 1, last + 1, first ^ 256]);
    let (visit, receiver) = (visit(), visit());
    let cell = rng.pick(&[0, 0, 1, 100, 223, 224, 255]);
    match rng.below(if whole { 14 } else { 11 }) {
        0 | 1 => Call::Begin,
        2..=4 => Call::Change { visit, cell, amount: 1 },
        5..=7 => Call::HandOver { giver: visit, receiver, cell },
        8 => Call::FlushPage { page: rng.pick(&[0, 31, 32, 255]) },
        9 => Call::Read { cell },
        10 => Call::Force,
        _ => Call::HandOverAll { giver: visit, receiver },
    }
}

fn holder_of_cell_0(ledger: &Ledger) -> Option<u16> {
    ledger.open_changes().find(|change| change.cell == 0).map(|change| change.holder)
}

/// Ends all active visits in any order: most by an abort, which takes the rows of the reserve.
fn end_all(rng: &mut Rng, arena: &mut Arena) -> Outcome<()> {
    let commits = rng.pick(&[0, 0, 0, 3]);
    while !arena.ledger().active.is_empty() {
        let visit = rng.pick(&arena.ledger().active);
        let end = if rng.below(10) < commits { commit(visit) } else { abort(visit) };
        arena.step(end)?;
    }
    Ok(())
}

pub fn play(bench: &mut Bench, seed: u64) -> Result<(), Failure> {
    let rng = &mut Rng::new(seed);
    let crowd = crowd(rng, seed);
    bench.case(|arena| {
        arena.step(Step::Format(formatted(rng)))?;
        arena.step(Step::WriteLog(ended_rows(rng, &crowd)))?;
        arena.expect(open(None), 0, 0)?;
        gather(rng, arena, &crowd)?;
        // The rows beyond the reserve go to a begin, to a change in a scope, or to a hand-over of a cell or of
        // a whole visit.
        let first = crowd.ended + 1;
        let giver = holder_of_cell_0(arena.ledger()).unwrap_or(first);
        let receiver = if giver == first { first + 1 } else { first };
        let calls = [
            begin(),
            change(first, 0, 1),
            hand_over(giver, receiver, 0),
            hand_over_all(giver, receiver),
        ];
        arena.step(calls[seed as usize / 8 % 4].clone())?;
        // Whole visits come last: where one is handed over with the last row beyond the reserve, no other
        // call meets that row any more.
        for index in 0..60 {
            arena.step(Step::Call(limit_call(rng, &crowd, index >= 30)))?;
        }
        end_all(rng, arena)?;
        arena.step(begin())?;
        arena.step(force())?;
        // A full log, or nearly so, opened with no write left; the flush closes the store.
        arena.step(open(Some(0)))?;
        arena.step(begin())?;
        arena.step(flush(0))?;
        for _ in 0..16 {
            if rng.chance(1, 2) {
                arena.step(lend(rng))?;
            }
            arena.step(Step::Call(any_call(rng)))?;
        }
        arena.step(Step::Format(formatted(rng)))?;
        arena.step(open(None))?;
        Ok(())
    })?;
    Ok(())
}
