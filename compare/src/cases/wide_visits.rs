//! Visits whose number has a high byte (document 02, request L7), worked out by hand from documents 01 and 02.

use super::document::{change_row, hand_over_row, ready, row, undo_row, Case};
use crate::arena::{Arena, Outcome};
use crate::paper::{BEGIN, HAND_OVER, UNDO};
use crate::steps::*;
use crate::store::CELLS;

/// Visits begin and commit, from this one to that one. Two rows each, all stored.
fn committed(a: &mut Arena, from: u16, to: u16, rows_before: i64) -> Outcome<()> {
    for visit in from..=to {
        a.expect(begin(), 0, i64::from(visit))?;
        a.expect(commit(visit), 0, rows_before + 2 * i64::from(visit - from + 1))?;
    }
    Ok(())
}

/// Row n of the stored log.
fn stored<'a>(a: &'a Arena, n: usize) -> &'a [u8] {
    &a.paper.log[16 * (n - 1)..16 * n]
}

pub const WIDE_VISITS: [Case; 5] = [
    Case {
        name: "visit 256 begins after 255, and hands over to 257, both by two bytes",
        play: |a| {
            ready(a, 0)?;
            committed(a, 1, 255, 0)?;
            a.expect(begin(), 0, 256)?;
            if stored(a, 511) != [BEGIN, 0, 0, 0, 255, 1, 0, 0, 0, 0, 1, 0, 0, 0, 0, 0] {
                return a.differs("row 511 begins visit 256, the high byte in byte 10");
            }
            a.expect(change(256, 0, 10), 0, 512)?;
            a.expect(begin(), 0, 257)?;
            // Neither the low byte of 256 nor that of 257 is an active visit.
            a.expect(change(0, 0, 1), 9, 0)?;
            a.expect(change(1, 0, 1), 9, 0)?;
            a.expect(hand_over(256, 1, 0), 9, 0)?;
            a.expect(hand_over(256, 257, 0), 0, 514)?;
            a.expect(abort(256), 0, 515)?;
            a.expect(commit(257), 0, 516)?;
            if stored(a, 514) != [HAND_OVER, 0, 1, 0, 2, 2, 0, 0, 0, 0, 1, 1, 0, 0, 0, 0] {
                return a
                    .differs("row 514 hands over from 256 to 257, the high bytes in bytes 10 and 11");
            }
            a.expect(open(None), 0, 0)?;
            a.expect(read(0), 0, 10)?;
            a.expect(begin(), 0, 258)
        },
    },
    Case {
        name: "changes of a visit above 255 are undone, over a cut",
        play: |a| {
            ready(a, 0)?;
            committed(a, 1, 300, 0)?;
            a.expect(begin(), 0, 301)?;
            a.expect(change(301, 9, -200), 0, 602)?;
            a.expect(change(301, 9, 7), 0, 603)?;
            a.expect(begin(), 0, 302)?;
            a.expect(hand_over_all(301, 302), 0, 605)?;
            a.expect(force(), 0, 0)?;
            a.expect(open(Some(1)), 5, 0)?;
            if stored(a, 606) != [UNDO, 46, 0, 9, 94, 2, 91, 2, 7, 0, 1, 0, 0, 0, 0, 0] {
                return a.differs("row 606 undoes row 603, held by 302, the high byte in byte 10");
            }
            a.expect(open(None), 0, 3)?;
            a.expect(read(9), 0, 0)?;
            a.expect(begin(), 0, 303)
        },
    },
    Case {
        name: "visits 1 and 257 are active at once, and an abort of 1 undoes its changes alone",
        play: |a| {
            ready(a, 1)?;
            committed(a, 2, 256, 1)?;
            a.expect(begin(), 0, 257)?;
            a.expect(change(1, 0, 7), 0, 513)?;
            a.expect(change(257, 0, 5), 0, 514)?;
            a.expect(change(1, 0, 70), 0, 515)?;
            a.expect(change(257, 0, 50), 0, 516)?;
            a.expect(abort(1), 0, 519)?;
            a.expect(read(0), 0, 55)?;
            a.expect(commit(257), 0, 520)?;
            let undone = [undo_row(1, 0, 70, 515, 517), undo_row(1, 0, 7, 513, 518)].concat();
            if a.paper.log[16 * 516..16 * 518] != undone {
                return a.differs("rows 517 and 518 undo the changes of visit 1");
            }
            a.expect(open(None), 0, 0)?;
            a.expect(read(0), 0, 55)
        },
    },
    Case {
        name: "a high byte that a kind has not: 3, or that makes it the row of another visit: 16",
        play: |a| {
            let rows =
                [row(BEGIN, 1, 1), row(BEGIN, 2, 2), change_row(1, 0, 5, 3), hand_over_row(1, 2, 0, 4)];
            for (row, byte, number) in [
                (1, 10, 16),
                (1, 11, 3),
                (2, 10, 16),
                (2, 11, 3),
                (3, 10, 16),
                (3, 11, 3),
                (4, 10, 16),
                (4, 11, 16),
                (4, 12, 3),
            ] {
                let mut altered = rows.to_vec();
                altered[row - 1][byte] = 1;
                a.expect(Step::Format(vec![0; CELLS]), 0, 0)?;
                a.step(Step::WriteLog(altered))?;
                a.expect(open(None), number, row as i64)?;
            }
            a.expect(Step::Format(vec![0; CELLS]), 0, 0)?;
            a.step(Step::WriteLog(rows.to_vec()))?;
            a.expect(open(None), 0, 3)
        },
    },
    Case {
        name: "2,048 visits fill the log: the next begin is refused by 8, not by 6",
        play: |a| {
            ready(a, 0)?;
            committed(a, 1, 2_048, 0)?;
            a.expect(begin(), 8, 0)?;
            a.expect(open(None), 0, 0)?;
            a.expect(begin(), 8, 0)
        },
    },
];
