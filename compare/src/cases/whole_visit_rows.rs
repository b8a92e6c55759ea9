//! The row that hands over a whole visit (document 02, request L2), in logs that a host writes: where it is
//! allowed, and where not, worked out by hand from documents 01 and 02.

use super::document::{change_row, hand_over_all_row, hand_over_row, row, undo_row, Case};
use super::text::{is_refused, opens, with};
use crate::paper::{ABORT, BEGIN, COMMIT};
use crate::steps::*;

pub const WHOLE_VISIT_ROWS: [Case; 5] = [
    Case {
        name: "row of a whole visit: two different active visits, the giver holds something",
        play: |a| {
            let log = three_visits();
            // Three undo rows and three abort rows.
            opens(a, &with(&log, hand_over_all_row(1, 2, 7)), 6)?;
            opens(a, &with(&log, hand_over_all_row(2, 3, 7)), 6)?;
            a.expect(read(5), 0, 0)?;
            a.expect(read(6), 0, 0)?;
            // One visit as both, no change held, visits that have not begun, no visit.
            for (giver, receiver) in [(1, 1), (3, 1), (3, 3), (4, 1), (1, 4), (0, 1), (1, 0)] {
                is_refused(a, 16, &with(&log, hand_over_all_row(giver, receiver, 7)))?;
            }
            // Its giver has nothing left to hand over, by either kind of row.
            let log = with(&log, hand_over_all_row(1, 2, 7));
            is_refused(a, 16, &with(&log, hand_over_all_row(1, 3, 8)))?;
            is_refused(a, 16, &with(&log, hand_over_row(1, 3, 5, 8)))?;
            opens(a, &with(&log, hand_over_row(2, 3, 5, 8)), 6)?;
            opens(a, &with(&log, hand_over_all_row(2, 1, 8)), 6)
        },
    },
    Case {
        name: "row of a whole visit: cell zero, and every byte but kind, visits and number",
        play: |a| {
            let log = three_visits();
            let right = hand_over_all_row(1, 2, 7);
            opens(a, &with(&log, right), 6)?;
            for at in [3, 6, 7, 8, 9, 10, 11, 12, 13, 14, 15] {
                // With a high byte set the visit is one that is not active.
                let number = if at == 10 || at == 11 { 16 } else { 3 };
                for byte in [1, 5, 6, 255] {
                    let mut wrong = right;
                    wrong[at] = byte;
                    is_refused(a, number, &with(&log, wrong))?;
                }
            }
            is_refused(a, 3, &with(&log, hand_over_all_row(1, 2, 6)))?;
            is_refused(a, 3, &with(&log, hand_over_all_row(1, 2, 8)))?;
            // No kind follows it.
            let mut wrong = right;
            wrong[0] = 8;
            is_refused(a, 3, &with(&log, wrong))
        },
    },
    Case {
        name: "row of a whole visit: neither visit has ended, neither has an undo row",
        play: |a| {
            let log = three_visits();
            for end in [row(COMMIT, 3, 7), row(ABORT, 3, 7)] {
                let log = with(&log, end);
                is_refused(a, 16, &with(&log, hand_over_all_row(1, 3, 8)))?;
                is_refused(a, 16, &with(&log, hand_over_all_row(3, 1, 8)))?;
                opens(a, &with(&log, hand_over_all_row(1, 2, 8)), 5)?;
            }
            let log = with(&log, undo_row(2, 6, 40, 6, 7));
            is_refused(a, 16, &with(&log, hand_over_all_row(1, 2, 8)))?;
            is_refused(a, 16, &with(&log, hand_over_all_row(2, 1, 8)))?;
            opens(a, &with(&log, hand_over_all_row(1, 3, 8)), 5)
        },
    },
    Case {
        name: "row of a whole visit: changes, scopes and undo rows after it",
        play: |a| {
            let mut log = three_visits();
            log.push(hand_over_all_row(1, 2, 7));
            // The highest open change of visit 2 is its own in row 6, then those that it received. Visit 1
            // has none, and can end.
            is_refused(a, 16, &with(&log, undo_row(1, 6, 20, 5, 8)))?;
            is_refused(a, 16, &with(&log, undo_row(2, 6, 20, 5, 8)))?;
            opens(a, &with(&log, row(ABORT, 1, 8)), 5)?;
            is_refused(a, 16, &with(&log, row(ABORT, 2, 8)))?;
            let undone = with(&log, undo_row(2, 6, 40, 6, 8));
            opens(a, &with(&undone, undo_row(2, 6, 20, 5, 9)), 4)?;
            // With a commit row of visit 2 all three changes are kept.
            opens(a, &with(&log, row(COMMIT, 2, 8)), 2)?;
            a.expect(read(5), 0, 10)?;
            a.expect(read(6), 0, 60)?;
            // Sixty-one scopes more make sixty-four; what visit 1 changes of its old cells starts another.
            log.extend((8..=68).map(|number| change_row(3, number as u8, 1, number)));
            opens(a, &log, 67)?;
            is_refused(a, 17, &with(&log, change_row(1, 5, 1, 69)))?;
            is_refused(a, 17, &with(&log, change_row(1, 6, 1, 69)))?;
            opens(a, &with(&log, change_row(2, 6, 1, 69)), 68)
        },
    },
    Case {
        name: "row of a whole visit: one row is free beyond the reserve",
        play: |a| {
            // Two begins and 2,045 changes: 2,049 rows are free, 2,047 in reserve.
            let mut log = vec![row(BEGIN, 1, 1), row(BEGIN, 2, 2)];
            log.extend((3..=2_047).map(|number| change_row(1, (number % 2) as u8, 1, number)));
            log.push(hand_over_all_row(1, 2, 2_048));
            opens(a, &log, 2_047)?;
            log.push(hand_over_all_row(2, 1, 2_049));
            // As many as the reserve are free.
            opens(a, &log, 2_047)?;
            is_refused(a, 17, &with(&log, hand_over_all_row(1, 2, 2_050)))?;
            opens(a, &with(&log, row(COMMIT, 1, 2_050)), 1)
        },
    },
];

/// Three visits; visit 1 adds 10 g to cell 5 and 20 g to cell 6, visit 2 adds 40 g to cell 6, visit 3 holds
/// nothing.
fn three_visits() -> Vec<[u8; 16]> {
    vec![
        row(BEGIN, 1, 1),
        row(BEGIN, 2, 2),
        row(BEGIN, 3, 3),
        change_row(1, 5, 10, 4),
        change_row(1, 6, 20, 5),
        change_row(2, 6, 40, 6),
    ]
}
