//! Cases with the answers that documents 01 and 02 give: the twelve of 01's list, those of its text, the
//! counts of 02's request L1, the whole visits of L2, the begins of L4, the costliest openings of L6, the
//! visits of two bytes of L7, and the reasons of L8.

use super::begins::BEGINS;
use super::costliest::COSTLIEST;
use super::counts::COUNTS;
use super::reasons::REASONS;
use super::text::TEXT;
use super::twelve::TWELVE;
use super::whole_visit_rows::WHOLE_VISIT_ROWS;
use super::whole_visits::WHOLE_VISITS;
use super::wide_visits::WIDE_VISITS;
use crate::arena::{Arena, Outcome};
use crate::bench::{Bench, Failure};
use crate::paper::{Row, CHANGE, HAND_OVER, HAND_OVER_ALL, UNDO};
use crate::steps::{begin, open, Step};
use crate::store::CELLS;

pub struct Case {
    pub name: &'static str,
    pub play: fn(&mut Arena) -> Outcome<()>,
}

const LISTS: [&[Case]; 9] = [
    &TWELVE,
    &TEXT,
    &COUNTS,
    &WHOLE_VISITS,
    &WHOLE_VISIT_ROWS,
    &BEGINS,
    &COSTLIEST,
    &WIDE_VISITS,
    &REASONS,
];

pub const COUNT: u64 = {
    let (mut count, mut at) = (0, 0);
    while at < LISTS.len() {
        count += LISTS[at].len() as u64;
        at += 1;
    }
    count
};

pub fn play(bench: &mut Bench, seed: u64) -> Result<(), Failure> {
    if let Some(case) = LISTS.into_iter().flatten().nth(seed as usize) {
        bench.case(case.play)?;
    }
    Ok(())
}

/// A store formatted at zero, opened without a fuse, with this many visits begun.
pub fn ready(arena: &mut Arena, visits: i64) -> Outcome<()> {
    arena.expect(Step::Format(vec![0; CELLS]), 0, 0)?;
    arena.expect(open(None), 0, 0)?;
    for visit in 1..=visits {
        arena.expect(begin(), 0, visit)?;
    }
    Ok(())
}

pub fn row(kind: u8, visit: u16, number: u16) -> [u8; 16] {
    let row = Row { kind, visit, number, ..Row::default() };
    row.bytes()
}

pub fn change_row(visit: u16, cell: u8, change: i16, number: u16) -> [u8; 16] {
    let row = Row { kind: CHANGE, visit, cell, number, change, ..Row::default() };
    row.bytes()
}

pub fn undo_row(visit: u16, cell: u8, change: i16, undone: u16, number: u16) -> [u8; 16] {
    let row = Row { kind: UNDO, visit, cell, number, undone, change, ..Row::default() };
    row.bytes()
}

pub fn hand_over_row(giver: u16, receiver: u16, cell: u8, number: u16) -> [u8; 16] {
    let row = Row { kind: HAND_OVER, visit: giver, receiver, cell, number, ..Row::default() };
    row.bytes()
}

pub fn hand_over_all_row(giver: u16, receiver: u16, number: u16) -> [u8; 16] {
    let row = Row { kind: HAND_OVER_ALL, visit: giver, receiver, number, ..Row::default() };
    row.bytes()
}
