//! The twelve cases of document 01 that it marks with a star, with the answers that it gives.

use super::document::{ready, Case};
use crate::steps::*;
use crate::store::CELLS;

pub const TWELVE: [Case; 12] = [
    Case {
        name: "an empty store opens with fuse 0: ready, 0 rows",
        play: |a| {
            a.step(Step::Format(vec![0; CELLS]))?;
            a.expect(open(Some(0)), 0, 0)
        },
    },
    Case {
        name: "1 adds 300, 2 adds -200 to one cell; 2 commits, 1 aborts: -200",
        play: |a| {
            ready(a, 2)?;
            a.expect(change(1, 0, 300), 0, 3)?;
            a.expect(change(2, 0, -200), 0, 4)?;
            a.expect(commit(2), 0, 5)?;
            a.expect(abort(1), 0, 7)?;
            a.expect(read(0), 0, -200)?;
            a.expect(open(None), 0, 2)?;
            a.expect(read(0), 0, -200)
        },
    },
    Case {
        name: "1 changes, 2 begins, 1 hands to 2, 1 aborts, 2 commits: kept",
        play: |a| {
            ready(a, 1)?;
            a.expect(change(1, 0, 9), 0, 2)?;
            a.expect(begin(), 0, 2)?;
            a.expect(hand_over(1, 2, 0), 0, 4)?;
            a.expect(abort(1), 0, 5)?;
            a.expect(commit(2), 0, 6)?;
            a.expect(read(0), 0, 9)?;
            a.expect(open(None), 0, 0)?;
            a.expect(read(0), 0, 9)
        },
    },
    Case {
        name: "1 adds 10, hands to 2, adds 5; 1 commits, 2 aborts: 5",
        play: |a| {
            ready(a, 2)?;
            a.expect(change(1, 0, 10), 0, 3)?;
            a.expect(hand_over(1, 2, 0), 0, 4)?;
            a.expect(change(1, 0, 5), 0, 5)?;
            a.expect(commit(1), 0, 6)?;
            a.expect(abort(2), 0, 8)?;
            a.expect(read(0), 0, 5)
        },
    },
    Case {
        name: "as before, 2 hands back first, 1 commits: 15",
        play: |a| {
            ready(a, 2)?;
            a.expect(change(1, 0, 10), 0, 3)?;
            a.expect(hand_over(1, 2, 0), 0, 4)?;
            a.expect(change(1, 0, 5), 0, 5)?;
            a.expect(hand_over(2, 1, 0), 0, 6)?;
            a.expect(commit(1), 0, 7)?;
            a.expect(read(0), 0, 15)?;
            a.expect(open(None), 0, 1)?;
            a.expect(read(0), 0, 15)
        },
    },
    Case {
        name: "5 formatted, -32,768 added and undone: 5",
        play: |a| {
            a.expect(Step::Format(vec![5; CELLS]), 0, 0)?;
            a.expect(open(None), 0, 0)?;
            a.expect(begin(), 0, 1)?;
            a.expect(change(1, 0, -32_768), 0, 2)?;
            a.expect(read(0), 0, -32_763)?;
            a.expect(abort(1), 0, 4)?;
            a.expect(read(0), 0, 5)
        },
    },
    Case {
        name: "cell 223 accepted, 224 gives 10",
        play: |a| {
            ready(a, 1)?;
            a.expect(change(1, 223, 1), 0, 2)?;
            a.expect(change(1, 224, 1), 10, 0)
        },
    },
    Case {
        name: "hand-over to oneself gives 12",
        play: |a| {
            ready(a, 1)?;
            a.expect(change(1, 0, 1), 0, 2)?;
            a.expect(hand_over(1, 1, 0), 12, 0)
        },
    },
    Case {
        name: "hand-over of an untouched cell gives 13",
        play: |a| {
            ready(a, 2)?;
            a.expect(change(1, 0, 1), 0, 3)?;
            a.expect(hand_over(1, 2, 1), 13, 0)?;
            a.expect(hand_over(2, 1, 0), 13, 0)
        },
    },
    Case {
        name: "one visit: the 2,047th change accepted, the 2,048th gives 8",
        play: |a| {
            ready(a, 1)?;
            for number in 1..=2_047 {
                a.expect(change(1, 0, 1), 0, number + 1)?;
            }
            a.expect(change(1, 0, 1), 8, 0)?;
            // The abort takes exactly the rows that are left.
            a.expect(abort(1), 0, 4_096)?;
            a.expect(begin(), 8, 0)?;
            a.expect(force(), 0, 0)?;
            a.expect(open(Some(0)), 0, 0)?;
            a.expect(begin(), 8, 0)?;
            a.expect(read(0), 0, 0)
        },
    },
    Case {
        name: "sixteen active: the next begin gives 7",
        play: |a| {
            ready(a, 16)?;
            a.expect(begin(), 7, 0)?;
            a.expect(abort(16), 0, 17)?;
            a.expect(begin(), 0, 17)
        },
    },
    Case {
        name: "change, flush, cut, open: undone once; opened again, 0 rows",
        play: |a| {
            a.step(Step::Format(vec![0; CELLS]))?;
            a.expect(open(Some(3)), 0, 0)?;
            a.expect(begin(), 0, 1)?;
            a.expect(change(1, 0, 77), 0, 2)?;
            a.expect(flush(0), 0, 0)?;
            a.expect(commit(1), 5, 0)?;
            a.expect(open(None), 0, 2)?;
            a.expect(read(0), 0, 0)?;
            a.expect(open(None), 0, 0)?;
            a.expect(read(0), 0, 0)
        },
    },
];
