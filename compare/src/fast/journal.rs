//! Stored writes under the fuse, the tail, and what a failure of power leaves.

use super::charts::{apply, get_mark, PAGE};
use super::rows::{Row, Rows, ROW, ROWS};
use super::{Fuse, Lent, Ram, TAIL_ROWS};
use crate::store::Scope;

/// Why a call that passed its checks stops: power failed, or the tables that the host passed ask for
/// more rows than the log has. Both close the store and answer 5.
pub struct Stopped;

pub fn lose_ram(ram: &mut Ram, lent: &mut Lent) {
    *ram = Ram::CLOSED;
    lent.copy.fill(0);
    lent.scopes.fill(Scope::default());
}

/// One stored write: the fuse is counted down, or power fails.
fn spend_write(ram: &mut Ram) -> Result<(), Stopped> {
    match ram.fuse {
        Fuse::Unlimited => Ok(()),
        Fuse::Left(0) => Err(Stopped),
        Fuse::Left(left) => {
            ram.fuse = Fuse::Left(left - 1);
            Ok(())
        }
    }
}

/// Stores so many of the first rows of the tail, or those before power fails. Gives how many have landed.
fn store_rows(ram: &mut Ram, log: &mut [u8], count: usize) -> usize {
    for index in 0..count {
        if spend_write(ram).is_err() {
            return index;
        }
        let at = usize::from(ram.stored) * ROW;
        log[at..at + ROW].copy_from_slice(&ram.tail[index * ROW..(index + 1) * ROW]);
        ram.stored += 1;
    }
    count
}

/// Stores the first rows of the tail and moves the others up.
fn force_rows(ram: &mut Ram, lent: &mut Lent, count: usize) -> Result<(), Stopped> {
    let landed = store_rows(ram, lent.log, count);
    lent.landed.rows += landed as u16;
    if landed < count {
        return Err(Stopped);
    }
    let waiting = usize::from(ram.waiting);
    ram.tail.copy_within(count * ROW..waiting * ROW, 0);
    ram.tail[(waiting - count) * ROW..waiting * ROW].fill(0);
    ram.waiting -= count as u16;
    Ok(())
}

pub fn force_all(ram: &mut Ram, lent: &mut Lent) -> Result<(), Stopped> {
    force_rows(ram, lent, usize::from(ram.waiting))
}

/// Puts a row, which gets its number here, at the end of the tail. Copy and tables follow it.
pub fn append(ram: &mut Ram, lent: &mut Lent, mut row: Row) -> Result<u16, Stopped> {
    if usize::from(ram.waiting) == TAIL_ROWS {
        force_all(ram, lent)?;
    }
    if ram.rows() >= ROWS {
        return Err(Stopped);
    }
    row.number = ram.rows() as u16 + 1;
    let at = usize::from(ram.waiting) * ROW;
    ram.tail[at..at + ROW].copy_from_slice(&row.encode());
    ram.waiting += 1;
    apply(lent.copy, &row);
    let rows = Rows { log: lent.log, stored: ram.stored, tail: &ram.tail };
    ram.tables.follow(lent.scopes, &row, &rows);
    Ok(row.number)
}

/// A row that is stored, after all that wait, before its call returns: of begin and commit.
pub fn append_and_force(ram: &mut Ram, lent: &mut Lent, row: Row) -> Result<u16, Stopped> {
    let number = append(ram, lent, row)?;
    force_all(ram, lent)?;
    Ok(number)
}

/// Puts a row of an opening straight into the log. The rows of an opening are all forced in the end,
/// so this makes the same writes in the same order as the tail would.
pub fn store_row(ram: &mut Ram, lent: &mut Lent, mut row: Row) -> Result<(), Stopped> {
    if ram.rows() >= ROWS {
        return Err(Stopped);
    }
    spend_write(ram)?;
    row.number = ram.stored + 1;
    let at = usize::from(ram.stored) * ROW;
    lent.log[at..at + ROW].copy_from_slice(&row.encode());
    ram.stored += 1;
    lent.landed.rows += 1;
    apply(lent.copy, &row);
    let rows = Rows { log: lent.log, stored: ram.stored, tail: &[] };
    ram.tables.follow(lent.scopes, &row, &rows);
    Ok(())
}

/// Stores the rows that the page's copy bears, then the page.
pub fn store_page(ram: &mut Ram, lent: &mut Lent, page: usize) -> Result<(), Stopped> {
    let missing = get_mark(lent.copy, page).saturating_sub(ram.stored);
    force_rows(ram, lent, usize::from(missing.min(ram.waiting)))?;
    spend_write(ram)?;
    let bytes = page * PAGE..(page + 1) * PAGE;
    lent.charts[bytes.clone()].copy_from_slice(&lent.copy[bytes]);
    lent.landed.pages += 1;
    Ok(())
}
