//! What an opening found and left.

use super::{is_on_page, label, reasons, undo_rows, whole_visits, writes, Moment};
use crate::arena::cost::{all_begins_and_changes, bound};
use crate::cover::Cover;
use crate::paper::{self, get_mark, rows_of, Ledger, Row, UNDO};
use crate::store::{Answer, Lengths};
use std::cmp::Ordering;

pub struct Opening<'a> {
    pub lent: Lengths,
    /// Whether the opening got the RAM that the call before it left.
    pub sound: bool,
    pub fuse: Option<u32>,
    pub answer: Answer,
    pub before: &'a Moment,
    /// The rows that it found in the log.
    pub stored: usize,
    /// The log that it left.
    pub log: &'a [u8],
    pub charts: &'a [u8],
}

pub fn open(cover: &mut Cover, opening: &Opening) {
    let Opening { fuse, answer, before, stored, log, .. } = *opening;
    cover.answer("open", label(answer.number, opening.lent));
    match answer.number {
        0 | 5 => {}
        3 | 16 | 17 => return refused_log(cover, log, answer.value as usize),
        _ => return,
    }
    cover.shape_if(
        true,
        match fuse {
            None => "fuse none",
            Some(0) => "fuse 0",
            Some(1) => "fuse 1",
            Some(2..=7) => "fuse 2 to 7",
            Some(8..=99) => "fuse 8 to 99",
            Some(100..=65_535) => "fuse 100 to 65,535",
            Some(..=4_294_967_293) => "fuse of more than 16 bits",
            Some(_) => "fuse 4,294,967,294",
        },
    );
    let rows = rows_of(log);
    let new = &rows[stored..];
    cover.shape_if(!opening.sound, "opening of arbitrary RAM");
    let lost = opening.sound && before.open && before.waiting > 0;
    cover.shape_if(lost, "opening of waiting rows, without a cut");
    let stays = lost && whole_visits::stays_with_giver(&before.ledger, stored);
    cover.shape_if(stays, "opening that leaves a whole visit with its giver");
    if answer.number == 5 {
        return writes::cut_opening(cover, &Ledger::of(&rows[..stored]), answer.writes);
    }
    cover.writes_if(answer.writes.rows > 0, "open", "rows stored");
    cover.most("rows written by an opening", new.len());
    cover.most("rows stored", rows.len());
    cover.shape_if(new.is_empty(), "opening that wrote no row");
    cover.shape_if(new.len() > 64, "opening that wrote more than 64 rows");
    let last_write = !new.is_empty() && fuse == Some(new.len() as u32);
    cover.shape_if(last_write, "opening done with the last write of its fuse");
    cover.shape_if(stored == 4_096, "opening of a full log");
    let found = &rows[..stored];
    let costliest = stored > 0 && all_begins_and_changes(found);
    cover.shape_if(costliest, "opening of begins and changes alone");
    cover.shape_if(stored == 2_048 && costliest, "opening of 2,048 begins and changes");
    cover.shape_if(stored > 2_048, "opening of more than 2,048 rows");
    let full = stored > 2_048 && new.len() == bound(stored) && !new.is_empty();
    cover.shape_if(full, "opening of more than 2,048 rows that fills the log");
    undo_rows(cover, &rows, new);
    found_rows(cover, found);
    whole_visits::opened(cover, found);
    for page in 0..32 {
        let mark = usize::from(get_mark(opening.charts, usize::from(page)));
        if mark > 0 {
            let above = rows[mark..stored].iter().any(|row| is_on_page(row, page));
            cover.shape_if(above, "opening of a page with rows above its mark");
            let undone = rows[mark - 1].kind == UNDO;
            cover.shape_if(undone, "opening of a page whose mark is an undo row");
        }
    }
}

/// The rows that an opening found in the log.
fn found_rows(cover: &mut Cover, rows: &[Row]) {
    let undo_rows: Vec<&Row> = rows.iter().filter(|row| row.kind == UNDO).collect();
    if undo_rows.is_empty() {
        return;
    }
    let in_turns = undo_rows.windows(2).enumerate().any(|(at, pair)| {
        let mut later = undo_rows[at + 2..].iter();
        pair[0].visit != pair[1].visit && later.any(|row| row.visit == pair[0].visit)
    });
    cover.shape_if(in_turns, "opening of a log with undo rows of visits in turns");
    let ledger = Ledger::of(rows);
    let is_half_undone =
        |visit: &u16| ledger.bears_undo(*visit) && ledger.highest_open(*visit).is_some();
    let half_undone = ledger.active.iter().any(is_half_undone);
    cover.shape_if(half_undone, "opening of a log with a visit half undone");
    let wholly_undone = ledger.scopes().iter().any(|scope| scope.count == 0);
    cover.shape_if(wholly_undone, "opening of a log with a scope wholly undone in use");
}

/// A log that was refused at this row.
fn refused_log(cover: &mut Cover, log: &[u8], row: usize) {
    let place = match log[(row - 1) * 16] {
        _ if row > rows_of(log).len() => "log refused after its end",
        paper::BEGIN => "log refused at a begin row",
        paper::CHANGE => "log refused at a change row",
        paper::HAND_OVER => "log refused at a hand-over row",
        paper::HAND_OVER_ALL => "log refused at a row of a whole visit",
        paper::UNDO => "log refused at an undo row",
        paper::COMMIT => "log refused at a commit row",
        paper::ABORT => "log refused at an abort row",
        _ => "log refused at an unknown kind",
    };
    cover.shape_if(true, place);
    let rows = rows_of(&log[..row * 16]);
    let before = Ledger::of(&rows[..rows.len().min(row - 1)]);
    let lacks = |rows| before.free() < before.reserve() + rows;
    match log[(row - 1) * 16] {
        paper::BEGIN => cover.shape_if(lacks(2), "log refused at a begin row without room"),
        paper::CHANGE => cover.shape_if(lacks(2), "log refused at a change row without room"),
        paper::HAND_OVER => cover.shape_if(lacks(1), "log refused at a hand-over row without room"),
        paper::HAND_OVER_ALL => {
            whole_visits::refused_row(cover, &before, &log[(row - 1) * 16..row * 16])
        }
        _ => {}
    }
    match rows.len().cmp(&row) {
        Ordering::Equal => reasons::refused_row(cover, &before, &log[(row - 1) * 16..row * 16]),
        // The row is of kind 0, or stands behind one that is.
        _ => reasons::after_end(cover, rows.len() + 1 == row),
    }
}
