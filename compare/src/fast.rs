//! An efficient chart store, for comparisons of results and of speed.
//!
//! A table of scopes follows the rows, so that no call but an opening goes through the whole log. All
//! calls work in place and use no heap. They end for every state, table and buffer contents that a
//! host may pass: counters that do not fit together answer 5. Each answer counts the rows and pages that
//! its call has stored.

mod charts;
mod journal;
mod recovery;
mod rows;
mod tables;

use crate::store::{Answer, Scope, Writes, CELLS, RIGHT};
use charts::{bad_page, get_cell, redo, redo_alone, set_cell, PAGE, PAGES};
use journal::{append, append_and_force, force_all, lose_ram, store_page, Stopped};
use recovery::{check_log, roll_back};
use rows::{Row, Rows, BEGIN, CHANGE, COMMIT, HAND_OVER, HAND_OVER_ALL, ROW, ROWS};
use tables::{MOST_ACTIVE, MOST_SCOPES, MOST_VISITS};

pub use tables::Tables;

const TAIL_ROWS: usize = 64;

#[derive(Clone, Copy, PartialEq, Eq, Debug)]
pub enum Phase {
    Closed,
    Open,
}

#[derive(Clone, Copy, PartialEq, Eq, Debug)]
pub enum Fuse {
    Unlimited,
    /// The stored writes that still land.
    Left(u32),
}

/// What the store keeps in RAM beside the lent buffers.
#[derive(Clone, Copy, PartialEq, Eq, Debug)]
pub struct Ram {
    pub phase: Phase,
    pub fuse: Fuse,
    /// Rows of the stored log.
    pub stored: u16,
    /// Rows of the tail.
    pub waiting: u16,
    pub tables: Tables,
    /// The rows that wait, and zeros after them.
    pub tail: [u8; TAIL_ROWS * ROW],
}

impl Ram {
    /// The one closed state.
    pub const CLOSED: Ram = Ram {
        phase: Phase::Closed,
        fuse: Fuse::Unlimited,
        stored: 0,
        waiting: 0,
        tables: Tables::EMPTY,
        tail: [0; TAIL_ROWS * ROW],
    };

    fn rows(&self) -> usize {
        usize::from(self.stored) + usize::from(self.waiting)
    }
}

/// The buffers that a host lends to a call, and the stored writes that the call has landed there.
pub struct Lent<'a> {
    log: &'a mut [u8],
    charts: &'a mut [u8],
    copy: &'a mut [u8],
    scopes: &'a mut [Scope],
    landed: Writes,
}

impl<'a> Lent<'a> {
    /// The buffers for one call.
    #[inline(always)]
    pub fn new(
        log: &'a mut [u8],
        charts: &'a mut [u8],
        copy: &'a mut [u8],
        scopes: &'a mut [Scope],
    ) -> Lent<'a> {
        Lent { log, charts, copy, scopes, landed: Writes::NONE }
    }

    fn has_right_lengths(&self) -> bool {
        self.log.len() == RIGHT.log
            && self.charts.len() == RIGHT.charts
            && self.copy.len() == RIGHT.copy
            && self.scopes.len() == RIGHT.scopes
    }
}

/// Done by a call that has stored nothing.
fn done(value: i64) -> Answer {
    Answer { number: 0, value, writes: Writes::NONE }
}

fn refused(number: u8) -> Answer {
    refused_at(number, 0)
}

fn refused_at(number: u8, place: usize) -> Answer {
    Answer { number, value: place as i64, writes: Writes::NONE }
}

/// The answer of a call that passed its checks, with the writes that it has landed: all that it makes, or
/// those before power failed.
#[inline]
fn finish(ram: &mut Ram, lent: &mut Lent, result: Result<u16, Stopped>) -> Answer {
    let writes = lent.landed;
    match result {
        Ok(value) => Answer { writes, ..done(i64::from(value)) },
        Err(Stopped) => {
            lose_ram(ram, lent);
            Answer { writes, ..refused(5) }
        }
    }
}

pub fn format(ram: &mut Ram, lent: &mut Lent, cells: &[i32]) -> Answer {
    if !lent.has_right_lengths() || cells.len() != CELLS {
        return refused(1);
    }
    if let Some(cell) = cells.iter().position(|grams| grams.unsigned_abs() > 1_000_000) {
        return refused_at(2, cell);
    }
    lent.log.fill(0);
    lent.charts.fill(0);
    for (cell, grams) in cells.iter().enumerate() {
        set_cell(lent.charts, cell as u8, *grams);
    }
    lose_ram(ram, lent);
    done(0)
}

pub fn open(ram: &mut Ram, lent: &mut Lent, fuse: Fuse) -> Answer {
    if !lent.has_right_lengths() {
        return refused(1);
    }
    lose_ram(ram, lent);
    let stored = match forward(&mut ram.tables, lent) {
        Ok(stored) => stored,
        Err(refusal) => {
            lose_ram(ram, lent);
            return refusal;
        }
    };
    ram.phase = Phase::Open;
    ram.fuse = fuse;
    ram.stored = stored;
    let result = roll_back(ram, lent);
    finish(ram, lent, result)
}

/// The checks of an opening, and the copy as it is before the opening goes backward; gives the rows of the
/// log. Before it tables and scopes are those of no rows; where nothing is refused, after it those of the log.
pub fn forward(tables: &mut Tables, lent: &mut Lent) -> Result<u16, Answer> {
    let stored =
        check_log(tables, lent.scopes, lent.log).map_err(|(number, row)| refused_at(number, row))?;
    let rows = Rows { log: lent.log, stored, tail: &[] };
    if let Some(page) = bad_page(lent.charts, &rows) {
        return Err(refused_at(4, page));
    }
    lent.copy.copy_from_slice(lent.charts);
    redo(lent.copy, &rows);
    Ok(stored)
}

/// The forward part for one page, by the log and that page's bytes alone.
pub fn redo_page(log: &[u8], page: &mut [u8], number: u8) -> Answer {
    if log.len() != RIGHT.log || page.len() != PAGE {
        return refused(1);
    }
    if usize::from(number) >= PAGES {
        return refused(14);
    }
    redo_alone(page, usize::from(number), log);
    done(0)
}

/// The number of a refusal that every call but format and open can give.
struct Refused(u8);

/// The checks that every call but format and open makes first; gives the rows that are free beyond
/// the reserve. A state whose counters do not fit together is answered like a closed one.
fn room(ram: &Ram, lent: &Lent) -> Result<usize, Refused> {
    if !lent.has_right_lengths() {
        return Err(Refused(1));
    }
    let within_bounds = ram.phase == Phase::Open
        && usize::from(ram.waiting) <= TAIL_ROWS
        && usize::from(ram.tables.active_count) <= MOST_ACTIVE
        && usize::from(ram.tables.scope_count) <= MOST_SCOPES;
    if !within_bounds {
        return Err(Refused(5));
    }
    let needed = ram.rows() + ram.tables.reserve(lent.scopes);
    ROWS.checked_sub(needed).ok_or(Refused(5))
}

pub fn begin(ram: &mut Ram, lent: &mut Lent) -> Answer {
    let room = match room(ram, lent) {
        Ok(room) => room,
        Err(Refused(number)) => return refused(number),
    };
    if ram.tables.begun == MOST_VISITS {
        return refused(6);
    }
    if usize::from(ram.tables.active_count) == MOST_ACTIVE {
        return refused(7);
    }
    if room < 2 {
        return refused(8);
    }
    let visit = ram.tables.begun + 1;
    let row = Row { kind: BEGIN, visit, ..Row::default() };
    let result = append_and_force(ram, lent, row).map(|_| visit);
    finish(ram, lent, result)
}

pub fn change(ram: &mut Ram, lent: &mut Lent, visit: u16, cell: u8, amount: i16) -> Answer {
    let room = match room(ram, lent) {
        Ok(room) => room,
        Err(Refused(number)) => return refused(number),
    };
    if !ram.tables.is_active(visit) {
        return refused(9);
    }
    if usize::from(cell) >= CELLS {
        return refused(10);
    }
    let table_is_full = usize::from(ram.tables.scope_count) == MOST_SCOPES;
    if table_is_full && ram.tables.growing(lent.scopes, visit, cell).is_none() {
        return refused(11);
    }
    if room < 2 {
        return refused(8);
    }
    let row = Row { kind: CHANGE, visit, cell, change: amount, ..Row::default() };
    let result = append(ram, lent, row);
    finish(ram, lent, result)
}

/// The checks that both hand-overs make before they look at cells; gives the rows that are free beyond the
/// reserve.
#[inline]
fn room_between(ram: &Ram, lent: &Lent, giver: u16, receiver: u16) -> Result<usize, Refused> {
    let room = room(ram, lent)?;
    if !ram.tables.is_active(giver) || !ram.tables.is_active(receiver) {
        return Err(Refused(9));
    }
    if giver == receiver {
        return Err(Refused(12));
    }
    Ok(room)
}

pub fn hand_over(ram: &mut Ram, lent: &mut Lent, giver: u16, receiver: u16, cell: u8) -> Answer {
    let room = match room_between(ram, lent, giver, receiver) {
        Ok(room) => room,
        Err(Refused(number)) => return refused(number),
    };
    if usize::from(cell) >= CELLS {
        return refused(10);
    }
    if !ram.tables.holds(lent.scopes, giver, cell) {
        return refused(13);
    }
    if room < 1 {
        return refused(8);
    }
    let row = Row { kind: HAND_OVER, visit: giver, receiver, cell, ..Row::default() };
    let result = append(ram, lent, row);
    finish(ram, lent, result)
}

pub fn hand_over_all(ram: &mut Ram, lent: &mut Lent, giver: u16, receiver: u16) -> Answer {
    let room = match room_between(ram, lent, giver, receiver) {
        Ok(room) => room,
        Err(Refused(number)) => return refused(number),
    };
    if !ram.tables.holds_any(lent.scopes, giver) {
        return refused(13);
    }
    if room < 1 {
        return refused(8);
    }
    let row = Row { kind: HAND_OVER_ALL, visit: giver, receiver, ..Row::default() };
    let result = append(ram, lent, row);
    finish(ram, lent, result)
}

pub fn commit(ram: &mut Ram, lent: &mut Lent, visit: u16) -> Answer {
    if let Err(Refused(number)) = room(ram, lent) {
        return refused(number);
    }
    if !ram.tables.is_active(visit) {
        return refused(9);
    }
    let row = Row { kind: COMMIT, visit, ..Row::default() };
    let result = append_and_force(ram, lent, row);
    finish(ram, lent, result)
}

pub fn abort(ram: &mut Ram, lent: &mut Lent, visit: u16) -> Answer {
    if let Err(Refused(number)) = room(ram, lent) {
        return refused(number);
    }
    if !ram.tables.is_active(visit) {
        return refused(9);
    }
    let result = take_back(ram, lent, visit);
    finish(ram, lent, result)
}

/// Undo rows for the visit's open changes in descending order, then its abort row.
fn take_back(ram: &mut Ram, lent: &mut Lent, visit: u16) -> Result<u16, Stopped> {
    loop {
        let number = ram.tables.highest(lent.scopes, visit);
        if number == 0 {
            return append(ram, lent, Row::abort(visit));
        }
        let rows = Rows { log: lent.log, stored: ram.stored, tail: &ram.tail };
        let row = Row::undo(&rows.get(number), number, visit);
        append(ram, lent, row)?;
    }
}

pub fn force(ram: &mut Ram, lent: &mut Lent) -> Answer {
    if let Err(Refused(number)) = room(ram, lent) {
        return refused(number);
    }
    let result = force_all(ram, lent).map(|()| 0);
    finish(ram, lent, result)
}

pub fn flush_page(ram: &mut Ram, lent: &mut Lent, page: u8) -> Answer {
    if let Err(Refused(number)) = room(ram, lent) {
        return refused(number);
    }
    if usize::from(page) >= PAGES {
        return refused(14);
    }
    let result = store_page(ram, lent, usize::from(page)).map(|()| 0);
    finish(ram, lent, result)
}

pub fn read(ram: &Ram, lent: &Lent, cell: u8) -> Answer {
    if let Err(Refused(number)) = room(ram, lent) {
        return refused(number);
    }
    if usize::from(cell) >= CELLS {
        return refused(10);
    }
    done(i64::from(get_cell(lent.copy, cell)))
}
