//! Finer reasons for a rejected log (document 02, request L8), worked out by hand: 3 for wrong bytes, 16 for
//! a rule, 17 for a limit, in this order, and the first row that is not allowed.

use super::document::{change_row, hand_over_all_row, hand_over_row, ready, row, undo_row, Case};
use super::text::{is_refused, opens, with};
use crate::paper::{ABORT, BEGIN, COMMIT};
use crate::steps::*;

pub const REASONS: [Case; 5] = [
    Case {
        name: "wrong bytes, 3: an unknown kind, a byte that must be zero, a wrong own number, bytes after the end",
        play: |a| {
            let log = two_visits();
            let right = row(COMMIT, 1, 4);
            opens(a, &with(&log, right), 1)?;
            for (at, byte) in [(0, 8), (0, 255), (2, 1), (3, 1), (6, 1), (9, 1), (11, 1), (15, 1)] {
                is_refused(a, 3, &with(&log, set(right, at, byte)))?;
            }
            for number in [0, 3, 5, 260] {
                is_refused(a, 3, &with(&log, row(COMMIT, 1, number)))?;
            }
            // Kind 0 and a visit; a row behind a blank one, which would be allowed one row earlier.
            is_refused(a, 3, &with(&log, set(right, 0, 0)))?;
            is_refused(a, 3, &with(&with(&log, [0; 16]), right))?;
            is_refused(a, 3, &with(&with(&log, [0; 16]), row(COMMIT, 1, 5)))
        },
    },
    Case {
        name: "visits, cells, holders and undo rows, 16: fields out of their ranges too",
        play: |a| {
            let log = two_visits();
            opens(a, &with(&log, undo_row(1, 9, 7, 3, 4)), 2)?;
            for wrong in [
                // Visit 0, receiver 0, cells above 223, row 0 undone.
                row(BEGIN, 0, 4),
                change_row(0, 9, 1, 4),
                change_row(1, 224, 1, 4),
                change_row(1, 255, 1, 4),
                hand_over_row(0, 2, 9, 4),
                hand_over_row(1, 0, 9, 4),
                hand_over_row(1, 2, 224, 4),
                hand_over_all_row(0, 2, 4),
                hand_over_all_row(1, 0, 4),
                undo_row(0, 9, 7, 3, 4),
                undo_row(1, 224, 7, 3, 4),
                undo_row(1, 9, 7, 0, 4),
                row(COMMIT, 0, 4),
                row(ABORT, 0, 4),
                // Visits that are not the next, not active, or the same.
                row(BEGIN, 2, 4),
                row(BEGIN, 4, 4),
                change_row(3, 9, 1, 4),
                hand_over_row(1, 3, 9, 4),
                hand_over_row(1, 1, 9, 4),
                row(COMMIT, 3, 4),
                row(ABORT, 3, 4),
                // Holders.
                hand_over_row(2, 1, 9, 4),
                hand_over_row(1, 2, 8, 4),
                hand_over_all_row(2, 1, 4),
                row(ABORT, 1, 4),
                // Undo rows of no change, of the row itself and of a later one, of another holder, cell and change.
                undo_row(1, 9, 7, 2, 4),
                undo_row(1, 9, 7, 4, 4),
                undo_row(1, 9, 7, 5, 4),
                undo_row(2, 9, 7, 3, 4),
                undo_row(1, 8, 7, 3, 4),
                undo_row(1, 9, -7, 3, 4),
            ] {
                is_refused(a, 16, &with(&log, wrong))?;
            }
            Ok(())
        },
    },
    Case {
        name: "two and three reasons in one row: 3 before 16 before 17",
        play: |a| {
            let log: Vec<_> = (1..=16).map(|visit| row(BEGIN, visit, visit)).collect();
            is_refused(a, 17, &with(&log, row(BEGIN, 17, 17)))?;
            is_refused(a, 16, &with(&log, row(BEGIN, 18, 17)))?;
            is_refused(a, 16, &with(&log, row(BEGIN, 16, 17)))?;
            is_refused(a, 3, &with(&log, row(BEGIN, 17, 18)))?;
            is_refused(a, 3, &with(&log, set(row(BEGIN, 17, 17), 3, 1)))?;
            is_refused(a, 3, &with(&log, set(row(BEGIN, 18, 17), 3, 1)))?;
            // All scopes are in use, and the visit is not active, or there is no such cell.
            let mut log = two_visits();
            log.extend((4..=66).map(|number| change_row(2, number as u8, 1, number)));
            opens(a, &log, 66)?;
            is_refused(a, 17, &with(&log, change_row(2, 100, 1, 67)))?;
            is_refused(a, 16, &with(&log, change_row(3, 100, 1, 67)))?;
            is_refused(a, 16, &with(&log, change_row(2, 224, 1, 67)))?;
            is_refused(a, 3, &with(&log, change_row(2, 100, 1, 66)))?;
            is_refused(a, 3, &with(&log, change_row(3, 100, 1, 66)))
        },
    },
    Case {
        name: "no row is free beyond the reserve: 17, after 3 and 16",
        play: |a| {
            // Two begins and 2,045 changes: 2,049 rows are free, 2,047 in reserve; then to and back.
            let mut log = vec![row(BEGIN, 1, 1), row(BEGIN, 2, 2)];
            log.extend((3..=2_047).map(|number| change_row(1, 0, 1, number)));
            log.push(hand_over_row(1, 2, 0, 2_048));
            log.push(hand_over_row(2, 1, 0, 2_049));
            for (next, number) in [
                (row(BEGIN, 3, 2_050), 17),
                (row(BEGIN, 4, 2_050), 16),
                (row(BEGIN, 3, 2_051), 3),
                (row(BEGIN, 4, 2_051), 3),
                (change_row(1, 0, 1, 2_050), 17),
                (change_row(3, 0, 1, 2_050), 16),
                (change_row(1, 224, 1, 2_050), 16),
                (change_row(1, 0, 1, 2_051), 3),
                (hand_over_row(1, 2, 0, 2_050), 17),
                (hand_over_row(2, 1, 0, 2_050), 16),
                (hand_over_row(2, 1, 0, 2_049), 3),
                (hand_over_all_row(1, 2, 2_050), 17),
                (hand_over_all_row(2, 1, 2_050), 16),
            ] {
                is_refused(a, number, &with(&log, next))?;
            }
            opens(a, &with(&log, row(ABORT, 2, 2_050)), 2_046)?;
            // Sixteen begins and 2,032 changes: 2,048 rows are free and in reserve, so that both limits are met.
            let mut log: Vec<_> = (1..=16).map(|visit| row(BEGIN, visit, visit)).collect();
            log.extend((17..=2_048).map(|number| change_row(1, 0, 1, number)));
            is_refused(a, 17, &with(&log, row(BEGIN, 17, 2_049)))?;
            is_refused(a, 16, &with(&log, row(BEGIN, 18, 2_049)))?;
            opens(a, &log, 2_048)
        },
    },
    Case {
        name: "the first row not allowed, whatever stands behind it; the store is closed and left as it was",
        play: |a| {
            ready(a, 1)?;
            a.expect(change(1, 0, 5), 0, 2)?;
            let wrong = [255; 16];
            let rule = vec![row(BEGIN, 1, 1), row(BEGIN, 1, 2), wrong];
            a.step(Step::WriteLog(rule))?;
            a.expect(open(None), 16, 2)?;
            a.expect(read(0), 5, 0)?;
            let mut limit: Vec<_> = (1..=17).map(|visit| row(BEGIN, visit, visit)).collect();
            limit.extend([row(BEGIN, 1, 18), wrong]);
            a.step(Step::WriteLog(limit))?;
            a.expect(open(Some(0)), 17, 17)?;
            a.expect(begin(), 5, 0)?;
            a.step(Step::WriteLog(vec![wrong, row(BEGIN, 2, 2)]))?;
            a.expect(open(None), 3, 1)?;
            a.expect(force(), 5, 0)
        },
    },
];

/// Two visits, and 7 g added to cell 9 by the first.
fn two_visits() -> Vec<[u8; 16]> {
    vec![row(BEGIN, 1, 1), row(BEGIN, 2, 2), change_row(1, 9, 7, 3)]
}

fn set(mut row: [u8; 16], at: usize, byte: u8) -> [u8; 16] {
    row[at] = byte;
    row
}
