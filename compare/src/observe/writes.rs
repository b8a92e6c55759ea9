//! The stored writes that an answer counts: all of a call that is done, and those that landed before power
//! failed. So what is met here was met by counts that were compared, and not by a cut alone.

use super::{last_on_page, Moment};
use crate::cover::Cover;
use crate::paper::Ledger;
use crate::steps::place;
use crate::store::{Call, Writes};

/// A call that was done. It found the store as in `before`.
pub fn done_call(cover: &mut Cover, call: Call, before: &Moment, writes: Writes) {
    let place = place(call);
    let Writes { rows, pages } = writes;
    match call {
        // Their own row waits: what they store are rows of other calls.
        Call::Change { .. } | Call::HandOver { .. } | Call::HandOverAll { .. } => {
            cover.writes_if(rows == 64, place, "full tail stored first");
        }
        Call::Begin | Call::Commit { .. } => {
            cover.writes_if(rows == 1, place, "its own row stored");
            cover.writes_if(rows > 1, place, "rows that waited stored too");
            cover.writes_if(rows == 65 && before.waiting == 64, place, "full tail stored first");
        }
        Call::Abort { .. } => {
            let full = before.waiting == 64;
            cover.writes_if(rows > 0 && full, place, "full tail stored first");
            cover.writes_if(rows > 0 && !full, place, "tail that it has filled stored");
            cover.writes_if(rows > 64, place, "more than 64 rows stored");
        }
        Call::Force => cover.writes_if(rows > 0, place, "rows stored"),
        Call::FlushPage { .. } => {
            cover.writes_if(rows > 0 && pages == 1, place, "rows and its page stored");
            cover.writes_if(rows == 0 && pages == 1, place, "its page stored");
        }
        Call::Read { .. } => {}
    }
}

/// A call during which power failed. It found the store as in `before`.
pub fn cut_call(cover: &mut Cover, call: Call, before: &Moment, writes: Writes) {
    let place = place(call);
    let landed = usize::from(writes.rows);
    cover.writes_if(landed == 0, place, "cut at the first write");
    match call {
        Call::Change { .. } | Call::HandOver { .. } | Call::HandOverAll { .. } => {
            cover.writes_if(landed > 0, place, "cut between rows of a full tail");
        }
        Call::Begin | Call::Commit { .. } => {
            let all_landed = landed == before.waiting;
            cover.writes_if(landed > 0 && !all_landed, place, "cut between rows");
            cover.writes_if(landed > 0 && all_landed, place, "cut at its own row");
            let full = before.waiting == 64;
            cover.writes_if(full && landed < 64, place, "cut in a full tail");
            cover.writes_if(full && landed == 64, place, "cut after a full tail");
        }
        Call::Abort { .. } => {
            cover.writes_if(landed > 0 && landed < 64, place, "cut between rows of a full tail");
            cover.writes_if(landed > before.waiting, place, "cut after some of its undo rows");
            cover.writes_if(landed > 64, place, "cut after more than 64 rows");
        }
        Call::Force => cover.writes_if(landed > 0, place, "cut between rows"),
        Call::FlushPage { page } => {
            let mark = last_on_page(&before.ledger.rows, page).map_or(0, |row| row.number);
            let to_store = usize::from(mark).saturating_sub(before.stored);
            cover.writes_if(landed > 0 && landed < to_store, place, "cut between rows");
            cover.writes_if(
                landed > 0 && landed == to_store,
                place,
                "cut between its rows and its page",
            );
            cover.writes_if(to_store == 0, place, "cut at its page, with no row to store");
        }
        Call::Read { .. } => {}
    }
}

/// An opening during which power failed. The log that it found comes to `found`.
pub fn cut_opening(cover: &mut Cover, found: &Ledger, writes: Writes) {
    let landed = usize::from(writes.rows);
    let undo_rows = found.open_changes().count();
    let all_rows = undo_rows + found.active.len();
    cover.writes_if(landed == 0, "open", "cut at the first write");
    cover.writes_if(landed > 0 && landed < undo_rows, "open", "cut between undo rows");
    cover.writes_if(landed > 0 && landed == undo_rows, "open", "cut between undo rows and abort rows");
    cover.writes_if(landed > undo_rows, "open", "cut between abort rows");
    cover.writes_if(landed > 0 && landed + 1 == all_rows, "open", "cut at the last write");
    cover.writes_if(landed > 64, "open", "cut after more than 64 rows");
}
