//! The call that hands over a whole visit (document 02, request L2), worked out by hand from documents 01 and
//! 02. A line is as in a run file: number, value, rows, pages.

use super::counts::{changes, formatted};
use super::document::{ready, Case};
use crate::arena::{Arena, Outcome};
use crate::paper::UNDO;
use crate::steps::*;
use crate::store::Buffer;

pub const WHOLE_VISITS: [Case; 14] = [
    Case {
        name: "whole visit: one row for three cells, which waits",
        play: |a| {
            formatted(a, None)?;
            two_visits_with_two_cells(a)?;
            a.expect_line(change(1, 223, 30), "0 5 0 0")?;
            a.expect_line(hand_over_all(1, 2), "0 6 0 0")?;
            a.expect_line(force(), "0 0 4 0")?;
            if a.paper.log[16 * 5..16 * 6] != [7, 1, 2, 0, 6, 0, 0, 0, 0, 0, 0, 0, 0, 0, 0, 0] {
                return a.differs("row 6 has kind 7, giver 1, receiver 2 and its number");
            }
            Ok(())
        },
    },
    Case {
        name: "whole visit: the giver holds nothing before it makes a change, and nothing after",
        play: |a| {
            ready(a, 2)?;
            a.expect(hand_over_all(1, 2), 13, 0)?;
            a.expect(change(2, 5, 1), 0, 3)?;
            a.expect(hand_over_all(1, 2), 13, 0)?;
            a.expect(change(1, 5, 1), 0, 4)?;
            a.expect(change(1, 6, 1), 0, 5)?;
            a.expect(hand_over(1, 2, 5), 0, 6)?;
            // It holds cell 6 still.
            a.expect(hand_over_all(1, 2), 0, 7)?;
            a.expect(hand_over_all(1, 2), 13, 0)?;
            a.expect(hand_over(1, 2, 6), 13, 0)?;
            // What it received it holds, and can hand over.
            a.expect(hand_over_all(2, 1), 0, 8)?;
            a.expect(hand_over_all(2, 1), 13, 0)?;
            a.expect(hand_over_all(1, 2), 0, 9)
        },
    },
    Case {
        name: "whole visit: the order of refusals",
        play: |a| {
            ready(a, 2)?;
            a.expect(hand_over_all(3, 3), 9, 0)?;
            a.expect(hand_over_all(3, 1), 9, 0)?;
            a.expect(hand_over_all(1, 3), 9, 0)?;
            a.expect(hand_over_all(0, 1), 9, 0)?;
            a.expect(hand_over_all(257, 2), 9, 0)?;
            a.expect(hand_over_all(1, 258), 9, 0)?;
            a.expect(hand_over_all(1, 1), 12, 0)?;
            a.expect(hand_over_all(1, 2), 13, 0)?;
            a.step(Step::Lend(Buffer::Copy, 1_023))?;
            a.expect(hand_over_all(3, 3), 1, 0)?;
            a.expect(change(1, 0, 1), 0, 3)?;
            a.expect(hand_over_all(1, 1), 12, 0)?;
            a.expect(commit(2), 0, 4)?;
            a.expect(hand_over_all(1, 2), 9, 0)?;
            a.expect(hand_over_all(2, 1), 9, 0)
        },
    },
    Case {
        name: "whole visit: one row beyond the reserve is enough, none is not",
        play: |a| {
            ready(a, 2)?;
            for number in 0..2_045 {
                a.expect(change(1, (number % 3) as u8, 1), 0, number + 3)?;
            }
            // 2,047 rows, as many in reserve: two are free beyond it, then one, then none.
            a.expect(hand_over_all(1, 2), 0, 2_048)?;
            a.expect(hand_over_all(2, 1), 0, 2_049)?;
            a.expect(hand_over_all(1, 2), 8, 0)?;
            a.expect(hand_over(1, 2, 0), 8, 0)?;
            a.expect(hand_over_all(2, 1), 13, 0)?;
            a.expect(hand_over_all(1, 1), 12, 0)?;
            a.expect(hand_over_all(1, 3), 9, 0)?;
            // 2,045 undo rows and the abort row leave one, for the commit.
            a.expect(abort(1), 0, 4_095)?;
            a.expect(commit(2), 0, 4_096)?;
            a.expect(read(0), 0, 0)
        },
    },
    Case {
        name: "whole visit: the receiver's commit keeps all, the giver's abort takes nothing back",
        play: |a| {
            formatted(a, None)?;
            two_visits_with_two_cells(a)?;
            a.expect_line(hand_over_all(1, 2), "0 5 0 0")?;
            a.expect_line(abort(1), "0 6 0 0")?;
            a.expect_line(commit(2), "0 7 5 0")?;
            a.expect_line(open(None), "0 0 0 0")?;
            a.expect_line(read(0), "0 10 0 0")?;
            a.expect_line(read(7), "0 20 0 0")
        },
    },
    Case {
        name: "whole visit: the receiver's abort undoes all, the giver's commit keeps nothing",
        play: |a| {
            formatted(a, None)?;
            two_visits_with_two_cells(a)?;
            a.expect_line(change(2, 0, 5), "0 5 0 0")?;
            a.expect_line(hand_over_all(1, 2), "0 6 0 0")?;
            a.expect_line(commit(1), "0 7 5 0")?;
            a.expect_line(abort(2), "0 11 0 0")?;
            undone_by(a, 2, &[5, 4, 3])?;
            a.expect_line(read(0), "0 0 0 0")?;
            a.expect_line(read(7), "0 0 0 0")?;
            // The rows of the abort waited and are lost: the opening writes them again.
            a.expect_line(open(None), "0 4 4 0")?;
            a.expect_line(read(0), "0 0 0 0")?;
            a.expect_line(read(7), "0 0 0 0")
        },
    },
    Case {
        name: "whole visit: a change after it starts a scope, and is the giver's",
        play: |a| {
            ready(a, 2)?;
            a.expect(change(1, 0, 10), 0, 3)?;
            a.expect(change(1, 7, 1), 0, 4)?;
            a.expect(hand_over_all(1, 2), 0, 5)?;
            in_use(a, 2)?;
            a.expect(change(1, 0, 5), 0, 6)?;
            in_use(a, 3)?;
            a.expect(change(1, 0, 6), 0, 7)?;
            in_use(a, 3)?;
            a.expect(change(1, 7, 2), 0, 8)?;
            in_use(a, 4)?;
            a.expect(commit(1), 0, 9)?;
            a.expect(abort(2), 0, 12)?;
            undone_by(a, 2, &[4, 3])?;
            a.expect(read(0), 0, 11)?;
            a.expect(read(7), 0, 2)
        },
    },
    Case {
        name: "whole visit: handed over and back, its scopes do not grow",
        play: |a| {
            ready(a, 2)?;
            a.expect(change(1, 0, 1), 0, 3)?;
            a.expect(change(1, 7, 2), 0, 4)?;
            a.expect(hand_over_all(1, 2), 0, 5)?;
            a.expect(hand_over_all(2, 1), 0, 6)?;
            in_use(a, 2)?;
            a.expect(change(1, 0, 4), 0, 7)?;
            a.expect(change(1, 7, 8), 0, 8)?;
            in_use(a, 4)?;
            a.expect(commit(1), 0, 9)?;
            a.expect(open(None), 0, 1)?;
            a.expect(read(0), 0, 5)?;
            a.expect(read(7), 0, 10)
        },
    },
    Case {
        name: "whole visit: what it received passes on too, and its maker's scopes stay as they are",
        play: |a| {
            ready(a, 3)?;
            a.expect(change(1, 0, 1), 0, 4)?;
            a.expect(change(2, 7, 2), 0, 5)?;
            a.expect(change(2, 8, 4), 0, 6)?;
            a.expect(hand_over(1, 2, 0), 0, 7)?;
            a.expect(hand_over_all(2, 3), 0, 8)?;
            in_use(a, 3)?;
            // Visit 1 had handed cell 0 over, visit 2 never changed it, and row 8 handed over its cell 7.
            a.expect(change(1, 0, 8), 0, 9)?;
            a.expect(change(2, 0, 16), 0, 10)?;
            a.expect(change(2, 7, 32), 0, 11)?;
            in_use(a, 6)?;
            a.expect(hand_over_all(3, 1), 0, 12)?;
            // Its last change of cell 0 is row 9, and it has not handed the cell over since.
            a.expect(change(1, 0, 64), 0, 13)?;
            in_use(a, 6)?;
            a.expect(commit(1), 0, 14)?;
            a.expect(abort(2), 0, 17)?;
            undone_by(a, 2, &[11, 10])?;
            a.expect(read(0), 0, 73)?;
            a.expect(read(7), 0, 2)?;
            a.expect(read(8), 0, 4)
        },
    },
    Case {
        name: "whole visit: a take-back goes beyond the begin of the third holder",
        play: |a| {
            ready(a, 2)?;
            a.expect(change(1, 0, 9), 0, 3)?;
            a.expect(hand_over_all(1, 2), 0, 4)?;
            a.expect(commit(1), 0, 5)?;
            a.expect(begin(), 0, 3)?;
            a.expect(change(2, 1, 7), 0, 7)?;
            a.expect(hand_over_all(2, 3), 0, 8)?;
            a.expect(commit(2), 0, 9)?;
            a.expect(open(None), 0, 3)?;
            undone_by(a, 3, &[7, 3])?;
            a.expect(read(0), 0, 0)?;
            a.expect(read(1), 0, 0)
        },
    },
    Case {
        name: "whole visit: the same as all its single hand-overs, but for the row numbers",
        play: |a| {
            for is_whole in [false, true] {
                ready(a, 2)?;
                a.expect(change(1, 0, 10), 0, 3)?;
                a.expect(change(1, 7, 20), 0, 4)?;
                a.expect(change(2, 7, 40), 0, 5)?;
                let last = if is_whole {
                    a.expect(hand_over_all(1, 2), 0, 6)?;
                    6
                } else {
                    a.expect(hand_over(1, 2, 0), 0, 6)?;
                    a.expect(hand_over(1, 2, 7), 0, 7)?;
                    7
                };
                in_use(a, 3)?;
                a.expect(hand_over(1, 2, 7), 13, 0)?;
                a.expect(change(1, 7, 1), 0, last + 1)?;
                a.expect(change(1, 0, 2), 0, last + 2)?;
                a.expect(change(1, 0, 4), 0, last + 3)?;
                in_use(a, 5)?;
                a.expect(hand_over(2, 1, 7), 0, last + 4)?;
                a.expect(commit(1), 0, last + 5)?;
                a.expect(abort(2), 0, last + 7)?;
                undone_by(a, 2, &[3])?;
                a.expect(read(0), 0, 6)?;
                a.expect(read(7), 0, 61)?;
                a.expect(open(None), 0, 2)?;
            }
            Ok(())
        },
    },
    Case {
        name: "whole visit: sixty-four scopes at once, and no more of them or fewer",
        play: |a| {
            ready(a, 2)?;
            for cell in 0..64 {
                a.expect(change(1, cell, 1), 0, i64::from(cell) + 3)?;
            }
            a.expect(hand_over_all(1, 2), 0, 67)?;
            in_use(a, 64)?;
            a.expect(change(1, 0, 1), 11, 0)?;
            a.expect(change(2, 63, 1), 11, 0)?;
            a.expect(hand_over_all(2, 1), 0, 68)?;
            a.expect(change(1, 63, 1), 11, 0)?;
            // Rows 3 to 66 were stored with row 67.
            a.expect_line(commit(1), "0 69 3 0")?;
            in_use(a, 0)?;
            a.expect(change(2, 63, 1), 0, 70)?;
            a.expect(read(63), 0, 2)
        },
    },
    Case {
        name: "whole visit: cut before its row is stored, the changes are the giver's",
        play: |a| {
            // The commit has rows 3 to 6 to store. Row 5 hands over.
            for (fuse, line, holder) in [(4, "5 0 2 0", 1), (5, "5 0 3 0", 2)] {
                formatted(a, Some(fuse))?;
                two_visits_with_two_cells(a)?;
                a.expect_line(hand_over_all(1, 2), "0 5 0 0")?;
                a.expect_line(commit(2), line)?;
                a.expect_line(open(None), "0 4 4 0")?;
                undone_by(a, holder, &[4, 3])?;
                a.expect_line(read(0), "0 0 0 0")?;
            }
            formatted(a, Some(6))?;
            two_visits_with_two_cells(a)?;
            a.expect_line(hand_over_all(1, 2), "0 5 0 0")?;
            a.expect_line(commit(2), "0 6 4 0")?;
            a.expect_line(open(None), "0 1 1 0")?;
            a.expect_line(read(0), "0 10 0 0")?;
            a.expect_line(read(7), "0 20 0 0")
        },
    },
    Case {
        name: "whole visit: a full tail is stored first, and its own row waits",
        play: |a| {
            for (fuse, line) in [(2, "5 0 0 0"), (12, "5 0 10 0"), (65, "5 0 63 0"), (66, "0 67 64 0")]
            {
                formatted(a, Some(fuse))?;
                a.expect_line(begin(), "0 1 1 0")?;
                a.expect_line(begin(), "0 2 1 0")?;
                changes(a, 3..=66)?;
                a.expect_line(hand_over_all(1, 2), line)?;
                // Each change that landed takes an undo row and each begin an abort row; row 67 is lost.
                let landed = i64::from(fuse);
                a.expect(open(None), 0, landed)?;
                let undone: Vec<u16> = (3..=fuse as u16).rev().collect();
                undone_by(a, 1, &undone)?;
            }
            Ok(())
        },
    },
];

/// Visits 1 and 2 begin, and visit 1 adds 10 g to cell 0 and 20 g to cell 7.
fn two_visits_with_two_cells(arena: &mut Arena) -> Outcome<()> {
    arena.expect_line(begin(), "0 1 1 0")?;
    arena.expect_line(begin(), "0 2 1 0")?;
    arena.expect_line(change(1, 0, 10), "0 3 0 0")?;
    arena.expect_line(change(1, 7, 20), "0 4 0 0")
}

/// So many scopes are in use.
fn in_use(arena: &Arena, scopes: usize) -> Outcome<()> {
    match arena.ledger().scopes_in_use() {
        found if found == scopes => Ok(()),
        found => arena.differs(format!("the documents have {scopes} scopes in use, the paper {found}")),
    }
}

/// The undo rows undo these changes in this order, all of them for this holder.
fn undone_by(arena: &Arena, holder: u16, undone: &[u16]) -> Outcome<()> {
    let rows = arena.ledger().rows.iter().filter(|row| row.kind == UNDO);
    let found: Vec<(u16, u16)> = rows.map(|row| (row.visit, row.undone)).collect();
    let expected: Vec<(u16, u16)> = undone.iter().map(|row| (holder, *row)).collect();
    if found != expected {
        return arena.differs(format!("holders and rows undone are {found:?}, not {expected:?}"));
    }
    Ok(())
}
