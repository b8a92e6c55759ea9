//! Damaged logs and pages: a store that sessions have left is altered a little and opened, many times
//! over. Some alterations make another allowed log, and the store goes on from there.

use super::rows::spoil;
use super::sessions::{any_call, formatted, fuse, habits, lend, next_call, session};
use crate::arena::{Arena, Outcome};
use crate::bench::{Bench, Failure};
use crate::prng::Rng;
use crate::steps::Step;

pub fn play(bench: &mut Bench, seed: u64) -> Result<(), Failure> {
    let rng = &mut Rng::new(seed);
    bench.case(|arena| {
        arena.step(Step::Format(formatted(rng)))?;
        let habits = habits(rng);
        for _ in 0..1 + rng.below(3) {
            let (fuse, calls) = (fuse(rng), rng.below(60));
            session(rng, arena, &habits, fuse, calls)?;
        }
        for _ in 0..12 {
            let log = rows_of(arena);
            let charts = arena.paper.charts.clone();
            let (in_log, in_charts) =
                rng.pick(&[(true, false), (true, false), (false, true), (true, true)]);
            if in_log {
                damage_log(rng, arena, &log)?;
            }
            if in_charts {
                damage_charts(rng, arena)?;
            }
            if rng.chance(1, 6) {
                arena.step(lend(rng))?;
                arena.step(Step::Open(fuse(rng)))?;
            }
            let answer = arena.step(Step::Open(fuse(rng)))?;
            let call = next_call(rng, &habits, arena.ledger());
            arena.step(Step::Call(call))?;
            // A rejected store is closed to every call, and is repaired.
            if matches!(answer.number, 3 | 16 | 17 | 4) {
                for _ in 0..2 {
                    if rng.chance(1, 2) {
                        arena.step(lend(rng))?;
                    }
                    arena.step(Step::Call(any_call(rng)))?;
                }
                arena.step(Step::WriteLog(log))?;
                arena.step(Step::WriteCharts(0, charts))?;
            }
        }
        Ok(())
    })?;
    Ok(())
}

/// The stored rows as bytes.
fn rows_of(arena: &Arena) -> Vec<[u8; 16]> {
    let rows = arena.paper.log.chunks_exact(16);
    rows.take_while(|row| row[0] != 0).map(|row| row.try_into().unwrap()).collect()
}

fn damage_log(rng: &mut Rng, arena: &mut Arena, log: &[[u8; 16]]) -> Outcome<()> {
    let mut rows = log.to_vec();
    let at = rng.below(rows.len().max(1));
    match rng.below(8) {
        0 => {
            let byte = rng.below(65_536);
            arena.step(Step::WriteLogByte(byte, rng.byte()))?;
            return Ok(());
        }
        1 => {
            let near = (log.len() * 16 + rng.below(64)).min(65_535);
            arena.step(Step::WriteLogByte(near, 1 + rng.byte() / 2))?;
            return Ok(());
        }
        _ if rows.is_empty() => return Ok(()),
        2 => {
            rows.remove(at);
            number(&mut rows);
        }
        3 => {
            let again = rows[at];
            rows.insert(rng.below(rows.len() + 1), again);
            number(&mut rows);
        }
        4 => {
            let other = rng.below(rows.len());
            rows.swap(at, other);
            number(&mut rows);
        }
        5 => rows[at] = [0; 16],
        6 => rows.truncate(at),
        _ => spoil(rng, &mut rows[at]),
    }
    arena.step(Step::WriteLog(rows))?;
    Ok(())
}

/// Gives every row the number of its place.
fn number(rows: &mut [[u8; 16]]) {
    for (index, row) in rows.iter_mut().enumerate() {
        row[4..6].copy_from_slice(&(index as u16 + 1).to_le_bytes());
    }
}

fn damage_charts(rng: &mut Rng, arena: &mut Arena) -> Outcome<()> {
    let page = 32 * rng.pick(&[0, 0, 1, 14, 31, 31]);
    let rows = arena.paper.stored_rows();
    let (at, bytes) = match rng.below(4) {
        0 => {
            let mark = rng.below(rows + 3) as u16;
            (page, mark.to_le_bytes().to_vec())
        }
        1 => (page + 2 + rng.below(2), vec![rng.byte()]),
        2 => {
            let any = rng.draw() as i32;
            let grams: i32 = rng.pick(&[
                200_000_000,
                200_000_001,
                -200_000_000,
                -200_000_001,
                i32::MIN,
                i32::MAX,
                any,
            ]);
            (page + 4 + 4 * rng.below(7), grams.to_le_bytes().to_vec())
        }
        _ => (rng.below(1_024), vec![rng.byte()]),
    };
    arena.step(Step::WriteCharts(at, bytes))?;
    Ok(())
}
