//! Pages: cells, marks, and what a row does to them.

use super::rows::{Row, Rows, CHANGE, ROW, UNDO};
use crate::store::CELLS;

pub const PAGES: usize = 32;
pub const PAGE: usize = 32;
const CELLS_PER_PAGE: usize = 7;

pub fn page_of(cell: u8) -> usize {
    usize::from(cell) / CELLS_PER_PAGE
}

fn place_of(cell: u8) -> usize {
    page_of(cell) * PAGE + 4 + 4 * (usize::from(cell) % CELLS_PER_PAGE)
}

#[inline]
pub fn get_cell(charts: &[u8], cell: u8) -> i32 {
    let at = place_of(cell);
    i32::from_le_bytes([charts[at], charts[at + 1], charts[at + 2], charts[at + 3]])
}

pub fn set_cell(charts: &mut [u8], cell: u8, grams: i32) {
    let at = place_of(cell);
    charts[at..at + 4].copy_from_slice(&grams.to_le_bytes());
}

pub fn get_mark(charts: &[u8], page: usize) -> u16 {
    u16::from_le_bytes([charts[page * PAGE], charts[page * PAGE + 1]])
}

fn set_mark(charts: &mut [u8], page: usize, row: u16) {
    charts[page * PAGE..page * PAGE + 2].copy_from_slice(&row.to_le_bytes());
}

/// Adds a change, subtracts an undo, and sets the page's mark. The sums wrap, so that no copy that a
/// host passes can stop a call.
pub fn apply(charts: &mut [u8], row: &Row) {
    if usize::from(row.cell) >= CELLS {
        return;
    }
    let grams = get_cell(charts, row.cell);
    let amount = i32::from(row.change);
    match row.kind {
        CHANGE => set_cell(charts, row.cell, grams.wrapping_add(amount)),
        UNDO => set_cell(charts, row.cell, grams.wrapping_sub(amount)),
        _ => return,
    }
    set_mark(charts, page_of(row.cell), row.number);
}

/// The first page that an opening refuses.
pub fn bad_page(charts: &[u8], rows: &Rows) -> Option<usize> {
    (0..PAGES).find(|page| {
        let mark = get_mark(charts, *page);
        let row = rows.get(mark);
        let is_row_of_page =
            mark <= rows.stored && row.is_change_or_undo() && page_of(row.cell) == *page;
        let first = page * CELLS_PER_PAGE;
        (mark != 0 && !is_row_of_page)
            || charts[page * PAGE + 2] != 0
            || charts[page * PAGE + 3] != 0
            || (first..first + CELLS_PER_PAGE)
                .any(|cell| get_cell(charts, cell as u8).unsigned_abs() > 200_000_000)
    })
}

/// Applies the rows above each page's mark.
pub fn redo(charts: &mut [u8], rows: &Rows) {
    for number in 1..=rows.stored {
        let row = rows.get(number);
        if row.is_change_or_undo() && number > get_mark(charts, page_of(row.cell)) {
            apply(charts, &row);
        }
    }
}

/// Applies the rows above its mark to one page, lent alone: it stands where page 0 of charts does. The
/// log may be any bytes, so a row has the number of its place.
pub fn redo_alone(page: &mut [u8], number: usize, log: &[u8]) {
    let first = (number * CELLS_PER_PAGE) as u8;
    let mark = get_mark(page, 0);
    for (bytes, place) in log.as_chunks::<ROW>().0.iter().zip(1..) {
        if bytes[0] == 0 {
            break;
        }
        let row = Row::decode(bytes);
        let cell = row.cell.wrapping_sub(first);
        if place > mark && usize::from(cell) < CELLS_PER_PAGE {
            apply(page, &Row { cell, number: place, ..row });
        }
    }
}
