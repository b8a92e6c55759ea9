//! Every byte of a row, with every value: for each kind of row a log that ends with such a row, of which
//! one byte is altered. "Every byte not named for a kind is zero."

use super::document::{change_row, hand_over_all_row, hand_over_row, row, undo_row};
use crate::bench::{Bench, Failure};
use crate::paper::{ABORT, BEGIN, CHANGE, COMMIT, HAND_OVER, HAND_OVER_ALL, UNDO};
use crate::steps::{open, Step};

/// One log for each kind of row, and a byte of its last row.
pub const COUNT: u64 = 7 * 16;

/// Two visits with a change each, a third one, and a row of the kind.
fn log(kind: u8) -> Vec<[u8; 16]> {
    let last = match kind {
        BEGIN => row(BEGIN, 4, 6),
        CHANGE => change_row(1, 222, -1, 6),
        HAND_OVER => hand_over_row(1, 2, 222, 6),
        UNDO => undo_row(1, 222, 300, 4, 6),
        COMMIT => row(COMMIT, 1, 6),
        HAND_OVER_ALL => hand_over_all_row(1, 2, 6),
        _ => row(ABORT, 3, 6),
    };
    vec![
        row(BEGIN, 1, 1),
        row(BEGIN, 2, 2),
        row(BEGIN, 3, 3),
        change_row(1, 222, 300, 4),
        change_row(2, 5, -200, 5),
        last,
    ]
}

pub fn play(bench: &mut Bench, seed: u64) -> Result<(), Failure> {
    let (kind, at) = (1 + seed as u8 / 16, seed as usize % 16);
    let right = log(kind);
    bench.case(|arena| {
        for value in 0..=255 {
            let mut rows = right.clone();
            rows[5][at] = value;
            arena.step(Step::WriteLog(rows))?;
            arena.step(open(None))?;
        }
        Ok(())
    })?;
    Ok(())
}
