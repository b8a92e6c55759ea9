//! Hand-overs of a whole visit (02, request L2), and what becomes of the changes that pass with it.

use super::Moment;
use crate::cover::Cover;
use crate::paper::{Change, Ledger, Row, SingleHandOver, HAND_OVER_ALL};

/// The single hand-overs after the change's row that passed it on, from its maker to its holder.
fn ways<'a>(ledger: &'a Ledger, change: &Change) -> impl Iterator<Item = &'a SingleHandOver> {
    let later = ledger.hand_overs.partition_point(|single| single.row <= change.row);
    let (cell, mut holder) = (change.cell, change.maker);
    ledger.hand_overs[later..].iter().filter(move |single| {
        let passes_on = single.cell == cell && single.giver == holder;
        if passes_on {
            holder = single.receiver;
        }
        passes_on
    })
}

fn is_of_whole_visit(ledger: &Ledger, single: &SingleHandOver) -> bool {
    ledger.rows[usize::from(single.row) - 1].kind == HAND_OVER_ALL
}

/// Whether the change's holder received it with a whole visit.
fn came_with_visit(ledger: &Ledger, change: &Change) -> bool {
    ways(ledger, change).last().is_some_and(|single| is_of_whole_visit(ledger, single))
}

fn held_by(ledger: &Ledger, visit: u16) -> impl Iterator<Item = &Change> {
    ledger.changes.iter().filter(move |change| change.holder == visit)
}

/// Whether the visit holds a change that it received with a whole visit.
pub fn has_received(ledger: &Ledger, visit: u16) -> bool {
    held_by(ledger, visit).any(|change| came_with_visit(ledger, change))
}

/// A whole visit was handed over to a store that was as in `before`.
pub fn handed_over(cover: &mut Cover, before: &Moment, giver: u16, receiver: u16) {
    let ledger = &before.ledger;
    let cells = ledger.cells_held(giver);
    cover.shape_if(cells.len() > 1, "whole visit handed over, several cells");
    let received = held_by(ledger, giver).any(|change| change.maker != giver);
    cover.shape_if(received, "whole visit handed over, received changes too");
    let joins = cells.iter().any(|cell| ledger.holds(receiver, *cell));
    cover.shape_if(joins, "whole visit handed to a holder of one of its cells");
    let came = || held_by(ledger, giver).filter(|change| came_with_visit(ledger, change));
    let back = came().any(|change| change.maker == receiver);
    cover.shape_if(back, "whole visit handed over and back");
    let on = came().any(|change| change.maker != receiver);
    cover.shape_if(on, "whole visit handed over and on to a third");
    let scopes = before.scopes.iter().filter(|scope| scope.holder == giver).count();
    cover.shape_if(scopes == 64, "sixty-four scopes handed over at once");
}

/// A change was done after these rows. A hand-over of the whole visit ended the scope of the visit's last
/// change of the cell.
pub fn change(cover: &mut Cover, ledger: &Ledger, visit: u16, cell: u8) {
    let mut own = ledger.changes.iter().rev();
    let Some(last) = own.find(|change| change.maker == visit && change.cell == cell) else {
        return;
    };
    let handed_on = ways(ledger, last).next();
    if !handed_on.is_some_and(|single| is_of_whole_visit(ledger, single)) {
        return;
    }
    cover.shape_if(true, "scope started after its whole visit was handed over");
    let is_back = last.holder == visit;
    cover.shape_if(is_back, "scope started after its whole visit came back");
}

/// Whether of these rows, if only the first so many are stored, a row is lost that hands over a whole visit,
/// and its giver holds changes that by all rows another holds. An abort may have stored more rows than these.
pub fn stays_with_giver(ledger: &Ledger, stored: usize) -> bool {
    let stored = stored.min(ledger.rows.len());
    let lost = ledger.rows[stored..].iter().filter(|row| row.kind == HAND_OVER_ALL);
    let givers: Vec<u16> = lost.map(|row| row.visit).collect();
    if givers.is_empty() {
        return false;
    }
    let left = Ledger::of(&ledger.rows[..stored]);
    let mut both = left.changes.iter().zip(&ledger.changes);
    both.any(|(left, all)| givers.contains(&left.holder) && left.holder != all.holder)
}

/// An opening found these rows, and is ready.
pub fn opened(cover: &mut Cover, rows: &[Row]) {
    if !rows.iter().any(|row| row.kind == HAND_OVER_ALL) {
        return;
    }
    cover.shape_if(true, "opening of a log with a whole visit handed over");
    let ledger = Ledger::of(rows);
    let undoes = ledger.open_changes().any(|change| came_with_visit(&ledger, change));
    cover.shape_if(undoes, "opening that undoes what came with a whole visit");
}

/// A row of kind 7 was refused after these rows. What is wrong with it is met where nothing else is.
pub fn refused_row(cover: &mut Cover, before: &Ledger, bytes: &[u8]) {
    let row = Row::read(bytes);
    let Row { kind, visit, receiver, cell, .. } = row;
    let number = before.rows.len() as u16 + 1;
    if (Row { kind, visit, receiver, cell, number, ..Row::default() }).bytes() != *bytes {
        return;
    }
    let [gives, receives] = [visit, receiver].map(|visit| before.is_active(visit));
    let bears_undo = (gives && before.bears_undo(visit)) || (receives && before.bears_undo(receiver));
    let wrong = [
        (cell != 0, "row of a whole visit refused: a cell"),
        (!gives, "row of a whole visit refused: giver not active"),
        (!receives, "row of a whole visit refused: receiver not active"),
        (gives && visit == receiver, "row of a whole visit refused: to the giver itself"),
        (bears_undo, "row of a whole visit refused: an undo row before it"),
        (gives && !before.holds_something(visit), "row of a whole visit refused: nothing held"),
        (before.free() < before.reserve() + 1, "row of a whole visit refused: no room"),
    ];
    let mut wrong = wrong.iter().filter(|(holds, _)| *holds);
    if let (Some((_, label)), None) = (wrong.next(), wrong.next()) {
        cover.shape_if(true, label);
    }
}
