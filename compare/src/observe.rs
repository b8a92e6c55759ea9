//! Finds out what a step has met. It looks at the paper's store before and after the step.

pub mod begins;
pub mod conditions;
pub mod openings;
pub mod pages;
mod reasons;
mod whole_visits;
mod wide_visits;
mod writes;

use crate::cover::Cover;
use crate::paper::{self, Ledger, Row, UNDO};
use crate::steps::place;
use crate::store::{Answer, Buffer, Call, Lengths, Scope, CELLS, RIGHT};

/// What the paper's store is at a moment between two calls.
#[derive(Default)]
pub struct Moment {
    pub open: bool,
    pub fuse: Option<u32>,
    pub stored: usize,
    pub waiting: usize,
    /// Of the rows of log and tail, if the store is open.
    pub ledger: Ledger,
    pub scopes: Vec<Scope>,
}

/// The label of an answer; for 1 it names the buffer, the first if several have another length.
fn label(number: u8, lent: Lengths) -> String {
    let buffers = [Buffer::Log, Buffer::Charts, Buffer::Copy, Buffer::Scopes];
    let wrong = buffers.iter().find(|buffer| lent.get(**buffer) != RIGHT.get(**buffer));
    match (number, wrong) {
        (0, _) => "done".into(),
        (1, Some(buffer)) => format!("1 {buffer:?}").to_lowercase(),
        _ => number.to_string(),
    }
}

/// A format of a store that had so many rows stored.
pub fn format(
    cover: &mut Cover,
    cells: &[i32],
    lent: Lengths,
    sound: bool,
    answer: Answer,
    stored: usize,
) {
    let label = match answer.number {
        1 if lent == RIGHT && cells.len() != CELLS => "1 cells".into(),
        number => label(number, lent),
    };
    cover.answer("format", label);
    cover.shape_if(answer.number == 0 && !sound, "format of arbitrary RAM");
    cover.shape_if(answer.number == 0 && stored == 4_096, "format of a full log");
}

pub fn call(
    cover: &mut Cover,
    call: Call,
    lent: Lengths,
    answer: Answer,
    before: &Moment,
    after: &Moment,
) {
    let label = match (answer.number, call) {
        (5, _) if before.open => "5 cut".into(),
        (5, _) => "5 closed".into(),
        (9, Call::HandOver { giver, .. } | Call::HandOverAll { giver, .. }) => {
            let of_giver = !before.ledger.is_active(giver);
            if of_giver { "9 giver" } else { "9 receiver" }.into()
        }
        (number, _) => label(number, lent),
    };
    cover.answer(place(call), label);
    wide_visits::call(cover, call, answer, &before.ledger);
    if answer.number == 8 {
        let lacks_one = |rows| before.ledger.free() + 1 == before.ledger.reserve() + rows;
        match call {
            Call::Begin => cover.shape_if(lacks_one(2), "begin with one free row too few"),
            Call::Change { .. } => cover.shape_if(lacks_one(2), "change with one free row too few"),
            Call::HandOverAll { .. } => {
                cover.shape_if(lacks_one(1), "hand-over of a whole visit with one free row too few")
            }
            _ => cover.shape_if(lacks_one(1), "hand-over with one free row too few"),
        }
    }
    if answer.number == 5 && before.open {
        writes::cut_call(cover, call, before, answer.writes);
        let landed = before.stored + usize::from(answer.writes.rows);
        let lost = whole_visits::stays_with_giver(&before.ledger, landed);
        cover.shape_if(lost, "cut that leaves a whole visit with its giver");
    }
    if answer.number == 0 {
        cover.shape_if(before.fuse == Some(0), "call done with the fuse used up");
        let last_write = before.fuse != Some(0) && after.fuse == Some(0);
        cover.shape_if(last_write, "call done with the last write of its fuse");
        done(cover, call, before, after);
        writes::done_call(cover, call, before, answer.writes);
        store(cover, after);
    }
}

/// A call that was done.
fn done(cover: &mut Cover, call: Call, before: &Moment, after: &Moment) {
    let ledger = &before.ledger;
    let mut changes = ledger.changes.iter();
    let new = &after.ledger.rows[ledger.rows.len()..];
    let leaves_free = |rows| ledger.free() == ledger.reserve() + rows;
    match call {
        Call::Begin => {
            cover.shape_if(ledger.active.len() == 15, "begin of the sixteenth active visit");
            cover.shape_if(ledger.begin_rows() == 255, "begin of visit 256");
            cover.shape_if(leaves_free(2), "begin with just enough free rows");
        }
        Call::Change { visit, cell, .. } => {
            let starts = ledger.starts_scope(visit, cell);
            let in_use = before.scopes.len();
            cover.shape_if(starts && in_use == 63, "change that starts the sixty-fourth scope");
            cover.shape_if(in_use == 64, "scope grown while sixty-four are in use");
            let holds_own = changes.any(|c| c.maker == visit && c.cell == cell && c.holder == visit);
            cover.shape_if(holds_own && starts, "change after the cell was handed over and back");
            whole_visits::change(cover, ledger, visit, cell);
            cover.shape_if(leaves_free(2), "change with just enough free rows");
        }
        Call::HandOver { giver, receiver, cell } => {
            let goes_back = changes.any(|c| c.maker == receiver && c.cell == cell && c.holder == giver);
            cover.shape_if(goes_back, "hand-over back to the maker");
            cover.shape_if(leaves_free(1), "hand-over with just enough free rows");
        }
        Call::HandOverAll { giver, receiver } => {
            whole_visits::handed_over(cover, before, giver, receiver);
            cover.shape_if(leaves_free(1), "hand-over of a whole visit with just enough free rows");
        }
        Call::Commit { visit } => {
            let received = changes.any(|c| c.holder == visit && c.maker != visit);
            cover.shape_if(received, "commit of a received change");
            let of_whole = whole_visits::has_received(ledger, visit);
            cover.shape_if(of_whole, "commit of what came with a whole visit");
        }
        Call::Abort { visit } => {
            let of_whole = whole_visits::has_received(ledger, visit);
            cover.shape_if(of_whole, "abort of what came with a whole visit");
            undo_rows(cover, &after.ledger.rows, new);
            cover.shape_if(new.len() > 64, "abort of more than 64 rows");
            let fills = new.len() > 1 && after.ledger.free() == 0;
            cover.shape_if(fills, "abort that fills the log");
        }
        Call::FlushPage { page } => {
            let stored = after.stored - before.stored;
            let a_part = stored > 0 && after.waiting > 0;
            cover.shape_if(a_part, "flush that stores a part of the tail");
            let last = last_on_page(&ledger.rows, page);
            let all_stored = last.is_some() && stored == 0;
            cover.shape_if(all_stored, "flush of a page whose rows are stored");
            cover.shape_if(last.is_none(), "flush of a page that no row changed");
            let undone = last.is_some_and(|row| row.kind == UNDO);
            cover.shape_if(undone, "flush of an undone change");
        }
        Call::Force | Call::Read { .. } => {}
    }
}

fn is_on_page(row: &Row, page: u8) -> bool {
    row.is_change_or_undo() && row.cell / 7 == page
}

fn last_on_page(rows: &[Row], page: u8) -> Option<&Row> {
    rows.iter().rev().find(|row| is_on_page(row, page))
}

/// New undo rows at the end of a list of rows.
fn undo_rows(cover: &mut Cover, rows: &[Row], new: &[Row]) {
    for undo in new.iter().filter(|row| row.kind == UNDO) {
        let mut later = rows[usize::from(undo.undone)..].iter();
        let older = later.any(|row| row.kind == paper::BEGIN && row.visit == undo.visit);
        cover.shape_if(older, "undo of a change older than its holder");
        cover.shape_if(undo.change == i16::MIN, "undo of -32,768");
        cover.shape_if(undo.visit > 255, "undo row of a visit above 255");
    }
}

/// The store after a call that was done.
fn store(cover: &mut Cover, after: &Moment) {
    let (ledger, scopes) = (&after.ledger, &after.scopes);
    let begun = ledger.begin_rows();
    cover.most("rows stored", after.stored);
    cover.most("rows waiting", after.waiting);
    cover.most("visits begun", begun);
    cover.most("visits active", ledger.active.len());
    cover.most("scopes in use", scopes.len());
    cover.shape_if(after.stored == 4_096, "stored log of 4,096 rows");
    cover.shape_if(after.waiting == 64, "tail of 64 rows");
    cover.shape_if(ledger.active.len() == 16, "sixteen visits active");
    cover.shape_if(scopes.len() == 64, "sixty-four scopes in use");
    wide_visits::store(cover, ledger);
    cover.shape_if(ledger.free() == ledger.reserve(), "free rows equal to the reserve");
    let has_pair = |alike: fn(&Scope, &Scope) -> bool| {
        let later = |at: usize| &scopes[at + 1..];
        let mut each = scopes.iter().enumerate();
        each.any(|(at, one)| later(at).iter().any(|two| one.cell == two.cell && alike(one, two)))
    };
    let one_maker = has_pair(|one, two| one.maker == two.maker);
    cover.shape_if(one_maker, "two scopes of one maker and cell in use");
    let one_holder = has_pair(|one, two| one.holder == two.holder);
    cover.shape_if(one_holder, "two scopes of one cell held by one visit");
}
