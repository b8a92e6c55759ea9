//! Cases that the text of document 01 settles, with their answers: the run file's example, the errors
//! that its trade has made, power, the order of refusals, the limits, damaged stores.

use super::document::{change_row, hand_over_row, ready, row, undo_row, Case};
use crate::arena::{Arena, Outcome};
use crate::paper::{ABORT, BEGIN, COMMIT};
use crate::steps::*;
use crate::store::{Buffer, CELLS};

pub const TEXT: [Case; 32] = [
    Case {
        name: "the run file's example with fuse 3",
        play: |a| {
            example(a, 3)?;
            a.expect_line(commit(2), "5 0 1 0")?;
            a.expect_line(open(None), "0 3 3 0")?;
            a.expect_line(read(0), "0 0 0 0")
        },
    },
    Case {
        name: "the run file's example with fuse 6",
        play: |a| {
            example(a, 6)?;
            a.expect_line(commit(2), "0 6 4 0")?;
            a.expect_line(open(None), "0 0 0 0")?;
            a.expect_line(read(0), "0 -200 0 0")
        },
    },
    Case {
        name: "a take-back goes beyond the receiver's begin, by abort",
        play: |a| {
            ready(a, 1)?;
            a.expect(change(1, 0, 40), 0, 2)?;
            a.expect(begin(), 0, 2)?;
            a.expect(hand_over(1, 2, 0), 0, 4)?;
            a.expect(commit(1), 0, 5)?;
            a.expect(abort(2), 0, 7)?;
            a.expect(read(0), 0, 0)
        },
    },
    Case {
        name: "a take-back goes beyond the receiver's begin, by an opening",
        play: |a| {
            ready(a, 1)?;
            a.expect(change(1, 0, 40), 0, 2)?;
            a.expect(begin(), 0, 2)?;
            a.expect(hand_over(1, 2, 0), 0, 4)?;
            a.expect(commit(1), 0, 5)?;
            a.expect(open(None), 0, 2)?;
            a.expect(read(0), 0, 0)
        },
    },
    Case {
        name: "a scope handed over and back does not grow",
        play: |a| {
            ready(a, 2)?;
            a.expect(change(1, 0, 1), 0, 3)?;
            a.expect(hand_over(1, 2, 0), 0, 4)?;
            a.expect(change(1, 0, 2), 0, 5)?;
            a.expect(hand_over(2, 1, 0), 0, 6)?;
            a.expect(change(1, 0, 4), 0, 7)?;
            if a.ledger().scopes_in_use() != 2 {
                return a.differs("the third change belongs to the second scope");
            }
            a.expect(hand_over(1, 2, 0), 0, 8)?;
            a.expect(change(1, 0, 8), 0, 9)?;
            a.expect(abort(2), 0, 13)?;
            a.expect(read(0), 0, 8)
        },
    },
    Case {
        name: "-32,768 undone by an opening, on a page that bears it",
        play: |a| {
            ready(a, 1)?;
            a.expect(change(1, 8, -32_768), 0, 2)?;
            a.expect(flush(1), 0, 0)?;
            a.expect(open(None), 0, 2)?;
            a.expect(read(8), 0, 0)
        },
    },
    Case {
        name: "an undo row is not applied again to a page that bears it",
        play: |a| {
            ready(a, 1)?;
            a.expect(change(1, 0, 50), 0, 2)?;
            a.expect(abort(1), 0, 4)?;
            a.expect(flush(0), 0, 0)?;
            a.expect(open(None), 0, 1)?;
            a.expect(read(0), 0, 0)
        },
    },
    Case {
        name: "a page is stored after its rows",
        play: |a| {
            a.step(Step::Format(vec![0; CELLS]))?;
            a.expect(open(Some(2)), 0, 0)?;
            a.expect(begin(), 0, 1)?;
            a.expect(change(1, 0, 50), 0, 2)?;
            a.expect(flush(0), 5, 0)?;
            a.expect(open(None), 0, 2)?;
            a.expect(read(0), 0, 0)
        },
    },
    Case {
        name: "the fuse used up: what needs no write is done, a flush and a begin are not",
        play: |a| {
            for last in [flush(5), begin()] {
                a.step(Step::Format(vec![0; CELLS]))?;
                a.expect(open(Some(4)), 0, 0)?;
                a.expect(begin(), 0, 1)?;
                a.expect(begin(), 0, 2)?;
                a.expect(change(1, 0, 50), 0, 3)?;
                a.expect(commit(1), 0, 4)?;
                a.expect(force(), 0, 0)?;
                a.expect(read(0), 0, 50)?;
                a.expect(change(2, 1, 5), 0, 5)?;
                a.expect(abort(2), 0, 7)?;
                a.expect(last, 5, 0)?;
            }
            Ok(())
        },
    },
    Case {
        name: "a closed store answers 5 before anything but 1",
        play: |a| {
            for call in [
                begin(),
                change(9, 240, 1),
                hand_over(9, 9, 240),
                hand_over_all(9, 9),
                commit(9),
                abort(9),
                force(),
                flush(40),
                read(240),
            ] {
                a.expect(call.clone(), 5, 0)?;
                a.step(Step::Lend(Buffer::Scopes, 63))?;
                a.expect(call, 1, 0)?;
            }
            Ok(())
        },
    },
    Case {
        name: "a tail of 64 rows needs no write, the next row does",
        play: |a| {
            a.step(Step::Format(vec![0; CELLS]))?;
            a.expect(open(Some(1)), 0, 0)?;
            a.expect(begin(), 0, 1)?;
            for row in 2..=65 {
                a.expect(change(1, 0, 1), 0, row)?;
            }
            a.expect(change(1, 0, 1), 5, 0)?;
            a.expect(open(None), 0, 1)
        },
    },
    Case {
        name: "a full tail is forced before the row is added, which then waits",
        play: |a| {
            a.step(Step::Format(vec![0; CELLS]))?;
            a.expect(open(Some(65)), 0, 0)?;
            a.expect(begin(), 0, 1)?;
            for row in 2..=66 {
                a.expect(change(1, 0, 1), 0, row)?;
            }
            a.expect(open(None), 0, 65)
        },
    },
    Case {
        name: "a flush stores the rows up to the page's mark, the later ones wait",
        play: |a| {
            a.step(Step::Format(vec![0; CELLS]))?;
            a.expect(open(Some(3)), 0, 0)?;
            a.expect(begin(), 0, 1)?;
            a.expect(change(1, 0, 1), 0, 2)?;
            a.expect(change(1, 7, 1), 0, 3)?;
            a.expect(flush(0), 0, 0)?;
            a.expect(flush(1), 5, 0)?;
            a.expect(open(None), 0, 2)
        },
    },
    Case {
        name: "rows that wait are lost when the store is opened again",
        play: |a| {
            ready(a, 1)?;
            a.expect(change(1, 0, 50), 0, 2)?;
            // The change is lost, and only the visit has to be ended.
            a.expect(open(None), 0, 1)?;
            a.expect(read(0), 0, 0)?;
            a.expect(begin(), 0, 2)?;
            a.expect(change(2, 0, 50), 0, 4)
        },
    },
    Case {
        name: "a cut abort leaves undo rows; the opening goes on from there",
        play: |a| {
            a.step(Step::Format(vec![0; CELLS]))?;
            a.expect(open(Some(150)), 0, 0)?;
            a.expect(begin(), 0, 1)?;
            for row in 2..=100 {
                a.expect(change(1, 0, 1), 0, row)?;
            }
            a.expect(abort(1), 5, 0)?;
            // 150 rows landed: 100, then 50 undo rows; 49 changes are open.
            a.expect(open(Some(20)), 5, 0)?;
            a.expect(open(Some(29)), 5, 0)?;
            a.expect(open(Some(1)), 0, 1)?;
            a.expect(open(Some(0)), 0, 0)
        },
    },
    Case {
        name: "the order of refusals at hand over",
        play: |a| {
            ready(a, 2)?;
            a.expect(hand_over(3, 3, 224), 9, 0)?;
            a.expect(hand_over(1, 3, 224), 9, 0)?;
            a.expect(hand_over(0, 1, 0), 9, 0)?;
            a.expect(hand_over(1, 1, 224), 12, 0)?;
            a.expect(hand_over(1, 2, 224), 10, 0)?;
            a.expect(hand_over(1, 2, 0), 13, 0)?;
            a.expect(change(257, 0, 1), 9, 0)?;
            a.expect(change(3, 224, 1), 9, 0)?;
            a.expect(commit(258), 9, 0)?;
            a.expect(abort(0), 9, 0)?;
            a.expect(flush(32), 14, 0)?;
            a.expect(read(224), 10, 0)
        },
    },
    Case {
        name: "sixty-four scopes: they grow, and a further one gives 11",
        play: |a| {
            ready(a, 2)?;
            for cell in 0..64 {
                a.expect(change(1, cell, 1), 0, i64::from(cell) + 3)?;
            }
            a.expect(change(1, 64, 1), 11, 0)?;
            a.expect(change(2, 0, 1), 11, 0)?;
            a.expect(change(1, 224, 1), 10, 0)?;
            a.expect(change(1, 63, 1), 0, 67)?;
            a.expect(hand_over(1, 2, 63), 0, 68)?;
            a.expect(change(1, 63, 1), 11, 0)?;
            a.expect(commit(2), 0, 69)?;
            a.expect(change(1, 63, 1), 0, 70)
        },
    },
    Case {
        name: "scopes used up and no room: 11 before 8, and 8 for a scope that grows",
        play: |a| {
            ready(a, 1)?;
            for number in 0..2_047 {
                a.expect(change(1, (number % 64) as u8, 1), 0, number + 2)?;
            }
            a.expect(change(1, 64, 1), 11, 0)?;
            a.expect(change(1, 63, 1), 8, 0)
        },
    },
    Case {
        name: "a hand-over needs one row beyond the reserve, a begin two",
        play: |a| {
            ready(a, 2)?;
            // 2,046 changes: 2,048 rows, 2,048 in reserve.
            for number in 0..2_046 {
                a.expect(change(1, 0, 1), 0, number + 3)?;
            }
            a.expect(hand_over(1, 2, 0), 8, 0)?;
            a.expect(commit(2), 0, 2_049)?;
            a.expect(change(1, 0, 1), 8, 0)?;
            a.expect(begin(), 8, 0)?;
            a.expect(abort(1), 0, 4_096)?;
            a.expect(begin(), 8, 0)
        },
    },
    Case {
        name: "a hand-over takes the last free row beyond the reserve",
        play: |a| {
            ready(a, 2)?;
            for number in 0..2_045 {
                a.expect(change(1, 0, 1), 0, number + 3)?;
            }
            a.expect(hand_over(1, 2, 0), 0, 2_048)?;
            a.expect(change(1, 0, 1), 8, 0)?;
            a.expect(begin(), 8, 0)?;
            a.expect(hand_over(2, 1, 0), 0, 2_049)?;
            a.expect(hand_over(1, 2, 0), 8, 0)?;
            a.expect(abort(2), 0, 2_050)?;
            a.expect(abort(1), 0, 4_096)
        },
    },
    Case {
        name: "sixteen active and no room: 7",
        play: |a| {
            ready(a, 16)?;
            while a.step(change(5, 0, 1))?.number == 0 {}
            a.expect(change(5, 0, 1), 8, 0)?;
            a.expect(begin(), 7, 0)?;
            a.expect(commit(1), 0, 2_049)?;
            a.expect(begin(), 8, 0)
        },
    },
    Case {
        name: "a format within ±1,000,000; the first cell beyond is given",
        play: |a| {
            ready(a, 1)?;
            let mut cells = vec![0; CELLS];
            cells[3] = 1_000_000;
            cells[9] = -1_000_000;
            let accepted = Step::Format(cells.clone());
            cells[200] = i32::MIN;
            a.expect(Step::Format(cells.clone()), 2, 200)?;
            cells[17] = 1_000_001;
            a.expect(Step::Format(cells.clone()), 2, 17)?;
            cells[0] = -1_000_001;
            a.expect(Step::Format(cells), 2, 0)?;
            a.expect(begin(), 0, 2)?;
            a.expect(accepted, 0, 0)?;
            a.expect(read(3), 5, 0)?;
            a.expect(open(None), 0, 0)?;
            a.expect(read(3), 0, 1_000_000)?;
            a.expect(read(9), 0, -1_000_000)
        },
    },
    Case {
        name: "wrong lengths give 1 and change nothing",
        play: |a| {
            ready(a, 1)?;
            for (buffer, length) in [
                (Buffer::Log, 65_535),
                (Buffer::Log, 65_537),
                (Buffer::Charts, 1_023),
                (Buffer::Charts, 1_025),
                (Buffer::Copy, 0),
                (Buffer::Copy, 2_048),
                (Buffer::Scopes, 63),
                (Buffer::Scopes, 65),
            ] {
                for step in [
                    Step::Format(vec![0; CELLS]),
                    open(None),
                    begin(),
                    change(1, 0, 1),
                    hand_over(1, 1, 0),
                    hand_over_all(1, 1),
                    commit(1),
                    abort(1),
                    force(),
                    flush(0),
                    read(0),
                ] {
                    a.step(Step::Lend(buffer, length))?;
                    a.expect(step, 1, 0)?;
                }
            }
            a.expect(Step::Format(vec![0; CELLS - 1]), 1, 0)?;
            a.expect(Step::Format(vec![2_000_000; CELLS + 1]), 1, 0)?;
            a.expect(begin(), 0, 2)
        },
    },
    Case {
        name: "pages: bytes 2-3, cells beyond ±200,000,000, and the lowest page is given",
        play: |a| {
            ready(a, 0)?;
            for (place, grams, number) in [
                (4, 200_000_000_i32, 0),
                (28, -200_000_000, 0),
                (4, 200_000_001, 4),
                (28, -200_000_001, 4),
                (16, i32::MIN, 4),
            ] {
                let grams = grams.to_le_bytes().to_vec();
                a.step(Step::WriteCharts(5 * 32 + place, grams))?;
                a.expect(open(None), number, i64::from(number / 4 * 5))?;
                a.step(Step::WriteCharts(5 * 32 + place, vec![0; 4]))?;
            }
            a.step(Step::WriteCharts(31 * 32 + 2, vec![1]))?;
            a.expect(open(None), 4, 31)?;
            a.expect(begin(), 5, 0)?;
            a.step(Step::WriteCharts(7 * 32 + 3, vec![128]))?;
            a.expect(open(None), 4, 7)?;
            a.step(Step::WriteCharts(0, vec![1]))?;
            a.expect(open(None), 4, 0)
        },
    },
    Case {
        name: "pages: the mark is any change or undo row of that page",
        play: |a| {
            ready(a, 1)?;
            a.expect(change(1, 0, 10), 0, 2)?;
            a.expect(change(1, 7, 10), 0, 3)?;
            a.expect(change(1, 6, 10), 0, 4)?;
            a.expect(force(), 0, 0)?;
            // The first opening that is ready adds the undo rows 5, 6 and 7 and the abort row 8.
            for (mark, number) in
                [(1, 4), (2, 0), (3, 4), (4, 0), (5, 0), (6, 4), (7, 0), (8, 4), (9, 4)]
            {
                a.step(Step::WriteCharts(0, vec![mark, 0]))?;
                let answer = a.step(open(None))?;
                if answer.number != number {
                    return a.differs(format!("mark {mark} gives {number}"));
                }
            }
            Ok(())
        },
    },
    Case {
        name: "log: a byte after the end gives the row in which it stands",
        play: |a| {
            ready(a, 2)?;
            a.expect(force(), 0, 0)?;
            a.step(Step::WriteLogByte(16 * 4_095 + 15, 1))?;
            a.expect(open(None), 3, 4_096)?;
            a.step(Step::WriteLogByte(16 * 9 + 3, 1))?;
            a.expect(open(None), 3, 10)?;
            a.step(Step::WriteLogByte(16 * 2 + 1, 1))?;
            a.expect(open(None), 3, 3)?;
            // A row blanked in the middle ends the log; the next row is the first after the end.
            a.step(Step::WriteLog(vec![[0; 16], row(BEGIN, 1, 2)]))?;
            a.expect(open(None), 3, 2)
        },
    },
    Case {
        name: "log before pages: 3, 16 and 17 before 4",
        play: |a| {
            ready(a, 0)?;
            a.step(Step::WriteCharts(2, vec![1]))?;
            a.step(Step::WriteLogByte(0, 9))?;
            a.expect(open(None), 3, 1)?;
            a.expect(read(0), 5, 0)?;
            is_refused(a, 16, &[row(BEGIN, 2, 1)])?;
            a.expect(read(0), 5, 0)?;
            let visits: Vec<_> = (1..=17).map(|visit| row(BEGIN, visit, visit)).collect();
            is_refused(a, 17, &visits)?;
            a.expect(read(0), 5, 0)?;
            a.step(Step::WriteLog(Vec::new()))?;
            a.expect(open(None), 4, 0)
        },
    },
    Case {
        name: "undo rows of two visits in turns are read; undone visits only undo and abort",
        play: |a| {
            let log = vec![
                row(BEGIN, 1, 1),
                row(BEGIN, 2, 2),
                change_row(1, 5, 10, 3),
                change_row(2, 5, 20, 4),
                change_row(1, 5, 40, 5),
                change_row(2, 5, 80, 6),
                undo_row(1, 5, 40, 5, 7),
                undo_row(2, 5, 80, 6, 8),
                undo_row(1, 5, 10, 3, 9),
            ];
            a.step(Step::WriteLog(log.clone()))?;
            a.expect(open(None), 0, 3)?;
            a.expect(read(5), 0, 0)?;
            for next in [
                change_row(2, 5, 1, 10),
                row(COMMIT, 1, 10),
                row(COMMIT, 2, 10),
                row(ABORT, 2, 10),
                undo_row(1, 5, 10, 3, 10),
                undo_row(1, 5, 20, 4, 10),
                undo_row(2, 5, -20, 4, 10),
                undo_row(2, 6, 20, 4, 10),
            ] {
                let mut longer = log.clone();
                longer.push(next);
                is_refused(a, 16, &longer)?;
            }
            Ok(())
        },
    },
    Case {
        name: "rows need free rows: two beyond the reserve for a change, one for a hand-over",
        play: |a| {
            // Two begins and 2,045 changes: 2,049 rows are free, 2,047 in reserve.
            let mut log = vec![row(BEGIN, 1, 1), row(BEGIN, 2, 2)];
            log.extend((3..=2_047).map(|number| change_row(1, 0, 1, number)));
            opens(a, &log, 2_047)?;
            opens(a, &with(&log, row(BEGIN, 3, 2_048)), 2_048)?;
            opens(a, &with(&log, change_row(1, 0, 1, 2_048)), 2_048)?;
            log.push(hand_over_row(1, 2, 0, 2_048));
            // One more than the reserve is free.
            opens(a, &log, 2_047)?;
            is_refused(a, 17, &with(&log, row(BEGIN, 3, 2_049)))?;
            is_refused(a, 17, &with(&log, change_row(1, 0, 1, 2_049)))?;
            log.push(hand_over_row(2, 1, 0, 2_049));
            // As many as the reserve are free.
            opens(a, &log, 2_047)?;
            is_refused(a, 17, &with(&log, hand_over_row(1, 2, 0, 2_050)))?;
            opens(a, &with(&log, row(COMMIT, 1, 2_050)), 1)?;
            opens(a, &with(&log, undo_row(1, 0, 1, 2_047, 2_050)), 2_046)
        },
    },
    Case {
        name: "rows: an undo row takes its change out of the reserve",
        play: |a| {
            let mut log = vec![row(BEGIN, 1, 1), row(BEGIN, 2, 2)];
            log.extend((3..=2_002).map(|number| change_row(1, 0, 1, number)));
            log.extend((2_003..=2_502).map(|number| undo_row(1, 0, 1, 4_005 - number, number)));
            // 1,594 rows are free, 1,502 in reserve: 46 changes more.
            log.extend((2_503..=2_548).map(|number| change_row(2, 7, 1, number)));
            opens(a, &log, 1_548)?;
            is_refused(a, 17, &with(&log, change_row(2, 7, 1, 2_549)))
        },
    },
    Case {
        name: "rows: sixteen visits and sixty-four scopes at most",
        play: |a| {
            let mut log: Vec<_> = (1..=16).map(|visit| row(BEGIN, visit, visit)).collect();
            is_refused(a, 17, &with(&log, row(BEGIN, 17, 17)))?;
            log.extend((17..=80).map(|number| change_row(1, number as u8, 1, number)));
            is_refused(a, 17, &with(&log, change_row(1, 100, 1, 81)))?;
            is_refused(a, 17, &with(&log, change_row(2, 17, 1, 81)))?;
            opens(a, &with(&log, change_row(1, 80, 1, 81)), 81)?;
            // A scope that is wholly undone is in use until its holder ends.
            log.push(hand_over_row(1, 16, 80, 81));
            log.push(undo_row(16, 80, 1, 80, 82));
            is_refused(a, 17, &with(&log, change_row(2, 0, 1, 83)))?;
            log.push(row(ABORT, 16, 83));
            opens(a, &with(&log, change_row(2, 0, 1, 84)), 79)
        },
    },
    Case {
        name: "an opening takes nothing from RAM",
        play: |a| {
            ready(a, 1)?;
            a.expect(change(1, 100, 7), 0, 2)?;
            a.expect(force(), 0, 0)?;
            for seed in 0..20 {
                a.step(Step::Scramble(seed))?;
                a.step(open(Some(seed as u32 % 3)))?;
            }
            a.expect(open(None), 0, 0)?;
            a.step(Step::Scramble(20))?;
            a.expect(Step::Format(vec![3; CELLS]), 0, 0)?;
            a.expect(open(None), 0, 0)?;
            a.expect(read(100), 0, 3)
        },
    },
];

/// The calls that the two forms of the run file's example have in common.
fn example(arena: &mut Arena, fuse: u32) -> Outcome<()> {
    arena.step(Step::Format(vec![0; CELLS]))?;
    arena.expect_line(open(Some(fuse)), "0 0 0 0")?;
    arena.expect_line(begin(), "0 1 1 0")?;
    arena.expect_line(begin(), "0 2 1 0")?;
    arena.expect_line(change(1, 0, -200), "0 3 0 0")?;
    arena.expect_line(hand_over(1, 2, 0), "0 4 0 0")?;
    arena.expect_line(abort(1), "0 5 0 0")
}

/// The rows with one more.
pub fn with(rows: &[[u8; 16]], row: [u8; 16]) -> Vec<[u8; 16]> {
    let mut rows = rows.to_vec();
    rows.push(row);
    rows
}

/// An opening of this log is ready and writes so many rows.
pub fn opens(arena: &mut Arena, log: &[[u8; 16]], rows: i64) -> Outcome<()> {
    arena.step(Step::WriteLog(log.to_vec()))?;
    arena.expect(open(None), 0, rows)
}

/// The last row of this log is the first that is not allowed, for the reason with this number.
pub fn is_refused(arena: &mut Arena, number: u8, log: &[[u8; 16]]) -> Outcome<()> {
    arena.step(Step::WriteLog(log.to_vec()))?;
    arena.expect(open(None), number, log.len() as i64)
}
