//! Hosts that do not keep to document 01: calls on arbitrary states, tables and buffers have to end
//! with a number of the table; and openings of arbitrary bytes, which are compared like any other.

use super::sessions::{any_call, formatted, fuse, habits, next_call, session};
use crate::bench::{Bench, Failure};
use crate::paper::Ledger;
use crate::prng::Rng;
use crate::steps::Step;
use crate::store::Call;

pub fn play(bench: &mut Bench, seed: u64) -> Result<(), Failure> {
    let rng = &mut Rng::new(seed);
    bench.case(|arena| {
        arena.step(Step::Format(formatted(rng)))?;
        let habits = habits(rng);
        for _ in 0..4 {
            let (fuse, length) = (fuse(rng), rng.below(40));
            session(rng, arena, &habits, fuse, length)?;
            let mut calls: Vec<Call> = (0..1 + rng.below(12)).map(|_| any_call(rng)).collect();
            if rng.chance(1, 3) {
                // These two may ask for more rows than the log has.
                let visit = rng.pick(&[0, 1, 1, 1, 2]);
                let abort = Call::Abort { visit };
                calls.insert(0, rng.pick(&[abort, abort, Call::Commit { visit }]));
            }
            arena.step(Step::Garbage(rng.draw(), calls))?;
            if rng.chance(1, 4) {
                arena.step(Step::Format(formatted(rng)))?;
            }
        }
        let rows = any_rows(rng);
        arena.step(Step::WriteLog(rows))?;
        arena.step(Step::Open(fuse(rng)))?;
        let call = next_call(rng, &habits, &Ledger::default());
        arena.step(Step::Call(call))?;
        Ok(())
    })?;
    Ok(())
}

/// Rows of arbitrary bytes with right own numbers, kinds and, mostly, zeros where they belong.
fn any_rows(rng: &mut Rng) -> Vec<[u8; 16]> {
    let count = rng.pick(&[1, 3, 40, 4_096]);
    (1..=count)
        .map(|number: u16| {
            let mut row = [0; 16];
            row[0] = 1 + rng.below(7) as u8;
            row[1] = 1 + rng.below(3) as u8;
            row[4..6].copy_from_slice(&number.to_le_bytes());
            if number == 1 {
                row[0] = 1;
                row[1] = 1;
            } else if rng.chance(1, 2) {
                row[3] = rng.byte();
                row[8] = rng.byte();
            }
            row
        })
        .collect()
}
