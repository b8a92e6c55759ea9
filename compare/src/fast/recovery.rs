//! What an opening does: it checks the log while the tables follow its rows, and takes back what no
//! committed visit holds.

use super::journal::{store_row, Stopped};
use super::rows::{named_bytes_only, row_at, Row, Rows};
use super::rows::{ABORT, BEGIN, CHANGE, COMMIT, HAND_OVER, HAND_OVER_ALL, ROW, ROWS, UNDO};
use super::tables::{Tables, MOST_ACTIVE, MOST_SCOPES};
use super::{Lent, Ram};
use crate::store::{Scope, CELLS};

/// Why a log is refused: the bytes of a row, a rule, a limit.
const BYTES: u8 = 3;
const RULE: u8 = 16;
const LIMIT: u8 = 17;

/// The reason why a row whose bytes are those of a row is not allowed after the rows before it. `bears` says,
/// for each active visit, whether it bears an undo row.
fn reason(
    tables: &Tables,
    scopes: &[Scope],
    bears: &[bool; MOST_ACTIVE],
    row: &Row,
    rows: &Rows,
) -> Option<u8> {
    let has_room = |beyond: usize| {
        let free = ROWS - usize::from(rows.stored);
        free >= tables.reserve(scopes) + beyond
    };
    let within = |is_within: bool| (!is_within).then_some(LIMIT);
    if row.kind == BEGIN {
        if row.visit != tables.begun + 1 {
            return Some(RULE);
        }
        return within(usize::from(tables.active_count) < MOST_ACTIVE && has_room(2));
    }
    let Some(place) = tables.place(row.visit) else {
        return Some(RULE);
    };
    let is_lawful = match row.kind {
        CHANGE => !bears[place] && usize::from(row.cell) < CELLS,
        HAND_OVER | HAND_OVER_ALL => {
            let Some(other) = tables.place(row.receiver) else {
                return Some(RULE);
            };
            let holds = match row.kind {
                HAND_OVER => tables.holds(scopes, row.visit, row.cell),
                _ => tables.holds_any(scopes, row.visit),
            };
            place != other && !bears[place] && !bears[other] && holds
        }
        UNDO => {
            let highest = tables.highest(scopes, row.visit);
            let change = rows.get(highest);
            highest != 0
                && row.undone == highest
                && row.cell == change.cell
                && row.change == change.change
        }
        COMMIT => !bears[place],
        _ => tables.highest(scopes, row.visit) == 0,
    };
    if !is_lawful {
        return Some(RULE);
    }
    match row.kind {
        CHANGE => within(
            (usize::from(tables.scope_count) < MOST_SCOPES
                || tables.growing(scopes, row.visit, row.cell).is_some())
                && has_room(2),
        ),
        HAND_OVER | HAND_OVER_ALL => within(has_room(1)),
        _ => None,
    }
}

/// Goes through the log, judges each row and lets the tables follow it. Gives the number of rows, or the
/// refusal number with the first row that is refused.
pub fn check_log(tables: &mut Tables, scopes: &mut [Scope], log: &[u8]) -> Result<u16, (u8, usize)> {
    let mut bears = [false; MOST_ACTIVE];
    let mut count = 0;
    while let Some(bytes) = row_at(log, count).filter(|bytes| bytes[0] != 0) {
        let row = Row::decode(bytes);
        let rows = Rows { log, stored: count as u16, tail: &[] };
        if !named_bytes_only(bytes) || row.number != rows.stored + 1 {
            return Err((BYTES, count + 1));
        }
        if let Some(reason) = reason(tables, scopes, &bears, &row, &rows) {
            return Err((reason, count + 1));
        }
        match (row.kind, tables.place(row.visit)) {
            (UNDO, Some(place)) => bears[place] = true,
            (COMMIT | ABORT, Some(place)) => {
                bears.copy_within(place + 1.., place);
                bears[MOST_ACTIVE - 1] = false;
            }
            _ => {}
        }
        tables.follow(scopes, &row, &rows);
        count += 1;
    }
    let mut after = log[count * ROW..].chunks_exact(ROW);
    match after.position(|bytes| bytes != [0; ROW]) {
        Some(blank) => Err((BYTES, count + blank + 1)),
        None => Ok(count as u16),
    }
}

/// Undo rows for all open changes in descending order, then abort rows from the highest visit down.
/// Gives the number of rows written.
pub fn roll_back(ram: &mut Ram, lent: &mut Lent) -> Result<u16, Stopped> {
    let before = ram.stored;
    loop {
        let scopes = ram.tables.in_use(lent.scopes);
        let Some(scope) = scopes.iter().max_by_key(|scope| scope.last) else {
            break;
        };
        let (number, holder) = (scope.last, scope.holder);
        if number == 0 {
            break;
        }
        let rows = Rows { log: lent.log, stored: ram.stored, tail: &[] };
        let row = Row::undo(&rows.get(number), number, holder);
        store_row(ram, lent, row)?;
    }
    while ram.tables.active_count > 0 {
        let highest = ram.tables.active[usize::from(ram.tables.active_count) - 1];
        store_row(ram, lent, Row::abort(highest))?;
    }
    Ok(ram.stored - before)
}
