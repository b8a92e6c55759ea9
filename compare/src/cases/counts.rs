//! The stored writes that answers count, worked out by hand from documents 01 and 02 (request L1, with the
//! begins of L4). Each line is as in a run file: number, value, rows, pages.

use super::document::Case;
use crate::arena::{Arena, Outcome};
use crate::steps::*;
use crate::store::{Buffer, CELLS};
use std::ops::RangeInclusive;

pub const COUNTS: [Case; 13] = [
    Case {
        name: "counts: a row that waits counts for the call that stores it",
        play: |a| {
            formatted(a, None)?;
            a.expect_line(begin(), "0 1 1 0")?;
            a.expect_line(change(1, 0, 10), "0 2 0 0")?;
            // Row 2, and its own.
            a.expect_line(begin(), "0 2 2 0")?;
            a.expect_line(hand_over(1, 2, 0), "0 4 0 0")?;
            // The abort row waits too: an abort doesn't force.
            a.expect_line(abort(1), "0 5 0 0")?;
            a.expect_line(read(0), "0 10 0 0")?;
            // Rows 4 and 5, and its own.
            a.expect_line(commit(2), "0 6 3 0")?;
            a.expect_line(force(), "0 0 0 0")?;
            a.expect_line(begin(), "0 3 1 0")?;
            a.expect_line(change(3, 0, 1), "0 8 0 0")?;
            a.expect_line(force(), "0 0 1 0")
        },
    },
    Case {
        name: "counts: a commit cut at each of its six rows, and done",
        play: |a| {
            for left in 0..=6 {
                formatted(a, Some(1 + left))?;
                a.expect_line(begin(), "0 1 1 0")?;
                changes(a, 2..=6)?;
                let line = if left < 6 { format!("5 0 {left} 0") } else { "0 7 6 0".into() };
                a.expect_line(commit(1), &line)?;
            }
            Ok(())
        },
    },
    Case {
        name: "counts: an opening cut after k rows counts k",
        play: |a| {
            formatted(a, None)?;
            a.expect_line(begin(), "0 1 1 0")?;
            changes(a, 2..=4)?;
            a.expect_line(force(), "0 0 3 0")?;
            // Three undo rows and an abort row are to be stored: none, one, one, and the last two.
            a.expect_line(open(Some(0)), "5 0 0 0")?;
            a.expect_line(open(Some(1)), "5 0 1 0")?;
            a.expect_line(open(Some(1)), "5 0 1 0")?;
            a.expect_line(open(Some(2)), "0 2 2 0")?;
            a.expect_line(open(Some(0)), "0 0 0 0")
        },
    },
    Case {
        name: "counts: a flush counts the rows up to its page's mark, and its page",
        play: |a| {
            formatted(a, None)?;
            a.expect_line(begin(), "0 1 1 0")?;
            a.expect_line(change(1, 0, 1), "0 2 0 0")?;
            a.expect_line(change(1, 7, 1), "0 3 0 0")?;
            // Row 2. Row 3 is of page 1 and waits.
            a.expect_line(flush(0), "0 0 1 1")?;
            a.expect_line(flush(0), "0 0 0 1")?;
            a.expect_line(flush(1), "0 0 1 1")?;
            a.expect_line(flush(5), "0 0 0 1")?;
            a.expect_line(flush(32), "14 0 0 0")?;
            a.expect_line(commit(1), "0 4 1 0")
        },
    },
    Case {
        name: "counts: a cut flush counts the rows that landed, and no page",
        play: |a| {
            for (left, line) in [(0, "5 0 0 0"), (1, "5 0 1 0"), (2, "5 0 2 0"), (3, "0 0 2 1")] {
                formatted(a, Some(1 + left))?;
                a.expect_line(begin(), "0 1 1 0")?;
                a.expect_line(change(1, 0, 50), "0 2 0 0")?;
                a.expect_line(change(1, 6, 50), "0 3 0 0")?;
                a.expect_line(flush(0), line)?;
            }
            formatted(a, Some(1))?;
            // A page that no row changed, as the one write of the fuse and as the one beyond it.
            a.expect_line(flush(3), "0 0 0 1")?;
            a.expect_line(flush(3), "5 0 0 0")
        },
    },
    Case {
        name: "counts: a full tail counts for the call that stores it first",
        play: |a| {
            formatted(a, None)?;
            a.expect_line(begin(), "0 1 1 0")?;
            a.expect_line(begin(), "0 2 1 0")?;
            changes(a, 3..=66)?;
            // Of each of these two the own row is the first of the next tail.
            a.expect_line(hand_over(1, 2, 0), "0 67 64 0")?;
            changes(a, 68..=130)?;
            a.expect_line(change(1, 0, 1), "0 131 64 0")?;
            changes(a, 132..=194)?;
            // Of each of these two the full tail, then the own row, 195 and 260.
            a.expect_line(begin(), "0 3 65 0")?;
            changes(a, 196..=259)?;
            a.expect_line(commit(3), "0 260 65 0")
        },
    },
    Case {
        name: "counts: a full tail cut after ten rows, and the closed store",
        play: |a| {
            formatted(a, Some(11))?;
            a.expect_line(begin(), "0 1 1 0")?;
            changes(a, 2..=65)?;
            a.expect_line(change(1, 0, 1), "5 0 10 0")?;
            for call in [
                begin(),
                change(1, 0, 1),
                hand_over(1, 2, 0),
                hand_over_all(1, 2),
                commit(1),
                abort(1),
                force(),
                flush(0),
                read(0),
            ] {
                a.expect_line(call, "5 0 0 0")?;
            }
            // Ten changes landed, each of which takes an undo row; then the abort row.
            a.expect_line(open(None), "0 11 11 0")
        },
    },
    Case {
        name: "counts: an abort of a hundred rows stores two full tails, and seven rows wait",
        play: |a| {
            formatted(a, None)?;
            a.expect_line(begin(), "0 1 1 0")?;
            ninety_nine_changes(a)?;
            // Undo rows 101 to 199 and abort row 200: rows 66 to 129 are stored before row 130 is added, and
            // rows 130 to 193 before row 194.
            a.expect_line(abort(1), "0 200 128 0")?;
            a.expect_line(force(), "0 0 7 0")
        },
    },
    Case {
        name: "counts: an abort of a hundred rows cut in its first full tail, and in its second",
        play: |a| {
            // Of each fuse one write goes to the begin, and 64 to the change in row 66.
            formatted(a, Some(100))?;
            a.expect_line(begin(), "0 1 1 0")?;
            ninety_nine_changes(a)?;
            a.expect_line(abort(1), "5 0 35 0")?;
            formatted(a, Some(150))?;
            a.expect_line(begin(), "0 1 1 0")?;
            ninety_nine_changes(a)?;
            a.expect_line(abort(1), "5 0 85 0")?;
            // 50 undo rows landed, and 49 changes are open.
            a.expect_line(open(Some(20)), "5 0 20 0")?;
            a.expect_line(open(Some(29)), "5 0 29 0")?;
            a.expect_line(open(Some(1)), "0 1 1 0")
        },
    },
    Case {
        name: "counts: refusals count none, whatever waits",
        play: |a| {
            formatted(a, None)?;
            a.expect_line(begin(), "0 1 1 0")?;
            a.expect_line(begin(), "0 2 1 0")?;
            changes(a, 3..=66)?;
            a.expect_line(change(3, 0, 1), "9 0 0 0")?;
            a.expect_line(change(1, 224, 1), "10 0 0 0")?;
            a.expect_line(hand_over(1, 1, 0), "12 0 0 0")?;
            a.expect_line(hand_over(2, 1, 0), "13 0 0 0")?;
            a.expect_line(commit(3), "9 0 0 0")?;
            a.expect_line(abort(3), "9 0 0 0")?;
            a.expect_line(flush(32), "14 0 0 0")?;
            a.expect_line(read(224), "10 0 0 0")?;
            for call in [Step::Format(vec![0; CELLS]), open(None), begin(), commit(1), force()] {
                a.step(Step::Lend(Buffer::Charts, 1_023))?;
                a.expect_line(call, "1 0 0 0")?;
            }
            let mut cells = vec![0; CELLS];
            cells[5] = 1_000_001;
            a.expect_line(Step::Format(cells), "2 5 0 0")?;
            a.expect_line(force(), "0 0 64 0")
        },
    },
    Case {
        name: "counts: a format counts none, whatever it blanks",
        play: |a| {
            formatted(a, None)?;
            a.expect_line(begin(), "0 1 1 0")?;
            a.expect_line(change(1, 0, 1), "0 2 0 0")?;
            a.expect_line(flush(0), "0 0 1 1")?;
            a.expect_line(Step::Format(vec![7; CELLS]), "0 0 0 0")?;
            a.expect_line(begin(), "5 0 0 0")?;
            a.expect_line(open(None), "0 0 0 0")
        },
    },
    Case {
        name: "counts: after an opening refused by 1 the fuse runs on",
        play: |a| {
            formatted(a, Some(3))?;
            a.expect_line(begin(), "0 1 1 0")?;
            a.step(Step::Lend(Buffer::Log, 65_535))?;
            a.expect_line(open(None), "1 0 0 0")?;
            a.expect_line(begin(), "0 2 1 0")?;
            changes(a, 3..=4)?;
            a.expect_line(force(), "5 0 1 0")
        },
    },
    Case {
        name: "counts: an opening that rejects the store counts none",
        play: |a| {
            formatted(a, None)?;
            a.expect_line(begin(), "0 1 1 0")?;
            a.step(Step::WriteCharts(2, vec![1]))?;
            a.expect_line(open(None), "4 0 0 0")?;
            a.step(Step::WriteLogByte(16, 9))?;
            a.expect_line(open(None), "3 2 0 0")?;
            a.expect_line(force(), "5 0 0 0")
        },
    },
];

/// A store formatted at zero and opened with this fuse.
pub fn formatted(arena: &mut Arena, fuse: Option<u32>) -> Outcome<()> {
    arena.expect_line(Step::Format(vec![0; CELLS]), "0 0 0 0")?;
    arena.expect_line(open(fuse), "0 0 0 0")
}

/// Visit 1 changes cell 0 in these rows, all of which find room in the tail.
pub fn changes(arena: &mut Arena, rows: RangeInclusive<u16>) -> Outcome<()> {
    for row in rows {
        arena.expect_line(change(1, 0, 1), &format!("0 {row} 0 0"))?;
    }
    Ok(())
}

/// Visit 1, begun in row 1, changes cell 0 in rows 2 to 100. The first 64 of them are stored with row 66, and
/// 35 wait in the end.
fn ninety_nine_changes(arena: &mut Arena) -> Outcome<()> {
    changes(arena, 2..=65)?;
    arena.expect_line(change(1, 0, 1), "0 66 64 0")?;
    changes(arena, 67..=100)
}
