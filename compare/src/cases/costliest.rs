//! Openings that write the most rows for their logs (document 02, request L6), worked out by hand from documents
//! 01 and 02. A line is as in a run file: number, value, rows, pages.

use super::counts::formatted;
use super::document::Case;
use crate::arena::{Arena, Outcome};
use crate::steps::*;

pub const COSTLIEST: [Case; 5] = [
    Case {
        name: "costliest opening: a begin and changes of one cell, n rows in all, and n are written",
        play: |a| {
            for n in [0, 1, 2, 64, 65, 66, 129, 1_000, 2_047, 2_048] {
                formatted(a, None)?;
                if n > 0 {
                    a.step(begin())?;
                }
                for _ in 1..n {
                    a.step(change(1, 0, 1))?;
                }
                opened_after_force(a, n)?;
            }
            Ok(())
        },
    },
    Case {
        name: "costliest opening: sixteen visits and 64 scopes",
        play: |a| {
            formatted(a, None)?;
            for _ in 0..16 {
                a.step(begin())?;
            }
            for i in 0..640 {
                a.step(change(i % 16 + 1, (i / 16 % 4) as u8, 1))?;
            }
            opened_after_force(a, 656)
        },
    },
    Case {
        name: "costliest opening: with a row that is neither a begin nor a change fewer are written",
        play: |a| {
            let before = [begin(), begin(), change(1, 0, 10), change(2, 0, 20)];
            let rows = [
                (hand_over(1, 2, 0), 4),
                (hand_over_all(1, 2), 4),
                (commit(1), 2),
                // Two rows: the change is undone, and the visit ended.
                (abort(1), 2),
            ];
            for (row, written) in rows {
                formatted(a, None)?;
                a.steps(&before)?;
                a.step(row)?;
                opened_after_force(a, written)?;
            }
            Ok(())
        },
    },
    Case {
        name: "costliest opening: cut, it writes no more",
        play: |a| {
            formatted(a, None)?;
            a.steps(&[begin(), change(1, 0, 1), change(1, 1, 1), force()])?;
            a.expect_line(open(Some(2)), "5 0 2 0")?;
            // Five rows now: two of them are undo rows.
            a.expect_line(open(None), "0 1 1 0")
        },
    },
    Case {
        name: "costliest opening: of 3,072 rows, and 1,024 are written",
        play: |a| {
            formatted(a, None)?;
            a.steps(&[begin(), begin(), change(1, 1, 1)])?;
            for _ in 0..1_024 {
                a.steps(&[hand_over(1, 2, 1), hand_over(2, 1, 1)])?;
            }
            for _ in 0..1_021 {
                a.step(change(1, 0, 1))?;
            }
            a.expect_line(change(1, 0, 1), "8 0 0 0")?;
            opened_after_force(a, 1_024)
        },
    },
];

/// What waits is stored, and then an opening writes so many rows.
fn opened_after_force(arena: &mut Arena, written: u16) -> Outcome<()> {
    arena.step(force())?;
    arena.expect_line(open(None), &format!("0 {written} {written} 0"))
}
