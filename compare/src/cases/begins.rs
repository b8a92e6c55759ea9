//! Begins that are stored before they return (document 02, request L4), worked out by hand from documents 01
//! and 02. A line is as in a run file: number, value, rows, pages.

use super::counts::{changes, formatted};
use super::document::{row, Case};
use crate::arena::{Arena, Outcome};
use crate::paper::BEGIN;
use crate::steps::*;
use crate::store::Buffer;

pub const BEGINS: [Case; 8] = [
    Case {
        name: "begin: what waits is stored, then its own row",
        play: |a| {
            formatted(a, None)?;
            a.expect_line(begin(), "0 1 1 0")?;
            a.expect_line(begin(), "0 2 1 0")?;
            a.expect_line(change(1, 0, 10), "0 3 0 0")?;
            a.expect_line(hand_over(1, 2, 0), "0 4 0 0")?;
            a.expect_line(begin(), "0 3 3 0")?;
            if a.paper.log[16 * 4..16 * 6] != [row(BEGIN, 3, 5), [0; 16]].concat() {
                return a.differs("row 5 begins visit 3, and is the last that is stored");
            }
            a.expect_line(force(), "0 0 0 0")
        },
    },
    Case {
        name: "begin: with 64 rows waiting it makes 65 writes, with 63 it makes 64",
        play: |a| {
            formatted(a, None)?;
            a.expect_line(begin(), "0 1 1 0")?;
            changes(a, 2..=65)?;
            a.expect_line(begin(), "0 2 65 0")?;
            changes(a, 67..=129)?;
            a.expect_line(begin(), "0 3 64 0")
        },
    },
    Case {
        name: "begin: cut at each of its three writes its number is free, done it is not",
        play: |a| {
            for (fuse, line, next) in
                [(1, "5 0 0 0", 2), (2, "5 0 1 0", 2), (3, "5 0 2 0", 2), (4, "0 2 3 0", 3)]
            {
                formatted(a, Some(fuse))?;
                a.expect_line(begin(), "0 1 1 0")?;
                changes(a, 2..=3)?;
                a.expect_line(begin(), line)?;
                // Each change that landed takes an undo row, and each begin an abort row.
                a.expect_line(open(None), &format!("0 {fuse} {fuse} 0"))?;
                a.expect_line(begin(), &format!("0 {next} 1 0"))?;
            }
            Ok(())
        },
    },
    Case {
        name: "begin: a full tail cut at its first row, at its last, and before the begin's own",
        play: |a| {
            for landed in [0, 1, 29, 63, 64] {
                formatted(a, Some(1 + landed))?;
                a.expect_line(begin(), "0 1 1 0")?;
                changes(a, 2..=65)?;
                a.expect_line(begin(), &format!("5 0 {landed} 0"))?;
                a.expect_line(begin(), "5 0 0 0")?;
                let rows = landed + 1;
                a.expect_line(open(None), &format!("0 {rows} {rows} 0"))?;
                a.expect_line(begin(), "0 2 1 0")?;
            }
            formatted(a, Some(66))?;
            a.expect_line(begin(), "0 1 1 0")?;
            changes(a, 2..=65)?;
            a.expect_line(begin(), "0 2 65 0")?;
            a.expect_line(read(0), "0 64 0 0")?;
            a.expect_line(begin(), "5 0 0 0")
        },
    },
    Case {
        name: "begin: refused it stores nothing, whatever waits",
        play: |a| {
            begun(a, None, 16)?;
            a.expect_line(change(1, 0, 5), "0 17 0 0")?;
            a.expect_line(begin(), "7 0 0 0")?;
            a.step(Step::Lend(Buffer::Scopes, 65))?;
            a.expect_line(begin(), "1 0 0 0")?;
            a.expect_line(force(), "0 0 1 0")?;
            formatted(a, None)?;
            a.expect_line(begin(), "0 1 1 0")?;
            for _ in 0..2_047 {
                a.step(change(1, 0, 1))?;
            }
            // Rows 2 to 1,985 were stored as 31 full tails.
            a.expect_line(begin(), "8 0 0 0")?;
            a.expect_line(force(), "0 0 63 0")
        },
    },
    Case {
        name: "begin: refused by 7 and 8 while 64 rows wait",
        play: |a| {
            begun(a, Some(16), 16)?;
            changes(a, 17..=80)?;
            a.expect_line(begin(), "7 0 0 0")?;
            a.expect_line(force(), "5 0 0 0")?;
            formatted(a, None)?;
            a.expect_line(begin(), "0 1 1 0")?;
            changes(a, 2..=64)?;
            a.expect_line(force(), "0 0 63 0")?;
            for _ in 0..1_984 {
                a.step(change(1, 0, 1))?;
            }
            // Rows 65 to 1,984 were stored as 30 full tails.
            a.expect_line(begin(), "8 0 0 0")?;
            a.expect_line(force(), "0 0 64 0")
        },
    },
    Case {
        name: "begin: the seventh patient's number after a pulled plug",
        play: |a| {
            begun(a, None, 7)?;
            a.step(Step::Scramble(7))?;
            a.expect_line(open(None), "0 7 7 0")?;
            a.expect_line(begin(), "0 8 1 0")
        },
    },
    Case {
        name: "begin: numbers rise over openings and cuts, and start anew with a format",
        play: |a| {
            formatted(a, None)?;
            a.expect_line(begin(), "0 1 1 0")?;
            a.expect_line(open(None), "0 1 1 0")?;
            a.expect_line(begin(), "0 2 1 0")?;
            a.expect_line(commit(2), "0 4 1 0")?;
            a.expect_line(open(Some(0)), "0 0 0 0")?;
            a.expect_line(begin(), "5 0 0 0")?;
            a.expect_line(open(Some(1)), "0 0 0 0")?;
            a.expect_line(begin(), "0 3 1 0")?;
            a.expect_line(abort(3), "0 6 0 0")?;
            // The abort row is lost; the first opening is cut before it is written again.
            a.expect_line(open(Some(0)), "5 0 0 0")?;
            a.expect_line(open(None), "0 1 1 0")?;
            a.expect_line(begin(), "0 4 1 0")?;
            formatted(a, None)?;
            a.expect_line(begin(), "0 1 1 0")
        },
    },
];

/// A store formatted at zero and opened with this fuse, in which so many visits have begun. Nothing waits, so
/// each of them has stored its own row.
fn begun(arena: &mut Arena, fuse: Option<u32>, visits: u16) -> Outcome<()> {
    formatted(arena, fuse)?;
    for visit in 1..=visits {
        arena.expect_line(begin(), &format!("0 {visit} 1 0"))?;
    }
    Ok(())
}
