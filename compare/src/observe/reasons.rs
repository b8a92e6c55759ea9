//! Why a log was refused (02, request L8): the bytes, the rule or the limit that stands against its first bad
//! row, where it is the only one.

use crate::cover::Cover;
use crate::paper::{self, has_number, is_known_kind, reasons, sets_unnamed_byte, Ledger, Row};

/// A row after the end: the first, or a later one.
pub fn after_end(cover: &mut Cover, is_first: bool) {
    cover.shape_if(is_first, "3: kind 0, and another byte");
    cover.shape_if(!is_first, "3: a row further behind the end");
}

/// A row of another kind than 0 that is not allowed after these.
pub fn refused_row(cover: &mut Cover, before: &Ledger, bytes: &[u8]) {
    let row = Row::read(bytes);
    let labels = match reasons(before, bytes)[..] {
        [3] => wrong_bytes(bytes, before.rows.len() + 1),
        [16] => broken_rules(before, &row),
        [17] => exceeded_limits(before, &row),
        [3, 16, 17] => vec![(true, "3, 16 and 17 at once")],
        _ => return,
    };
    let mut holding = labels.iter().filter(|(holds, _)| *holds);
    if let (Some((_, label)), None) = (holding.next(), holding.next()) {
        cover.shape_if(true, label);
    }
}

type Labels = Vec<(bool, &'static str)>;

fn wrong_bytes(bytes: &[u8], number: usize) -> Labels {
    let known = is_known_kind(bytes);
    vec![
        (!known, "3: an unknown kind"),
        (known && sets_unnamed_byte(bytes), "3: a byte that must be zero"),
        (known && !has_number(bytes, number), "3: another own number"),
    ]
}

fn broken_rules(before: &Ledger, row: &Row) -> Labels {
    let (visit, receiver) = (row.visit, row.receiver);
    let active = before.is_active(visit);
    let bears = |visit| before.is_active(visit) && before.bears_undo(visit);
    match row.kind {
        paper::BEGIN => vec![
            (visit == 0, "16: begin of visit 0"),
            (visit != 0, "16: begin of another visit than the next"),
        ],
        paper::CHANGE => vec![
            (visit == 0, "16: change by visit 0"),
            (visit != 0 && !active, "16: change by a visit that is not active"),
            (bears(visit), "16: change after an undo row of the visit"),
            (row.cell > 223, "16: change of a cell above 223"),
        ],
        paper::HAND_OVER => vec![
            (visit == 0, "16: hand-over by visit 0"),
            (receiver == 0, "16: hand-over to visit 0"),
            (visit != 0 && !active, "16: hand-over by a visit that is not active"),
            (
                receiver != 0 && !before.is_active(receiver),
                "16: hand-over to a visit that is not active",
            ),
            (active && visit == receiver, "16: hand-over of a visit to itself"),
            (bears(visit), "16: hand-over after an undo row of the giver"),
            (bears(receiver) && visit != receiver, "16: hand-over after an undo row of the receiver"),
            (row.cell > 223, "16: hand-over of a cell above 223"),
            (
                active && row.cell <= 223 && !before.holds(visit, row.cell),
                "16: hand-over of a cell not held",
            ),
        ],
        paper::UNDO => broken_undo(before, row),
        paper::COMMIT => vec![
            (visit == 0, "16: commit of visit 0"),
            (visit != 0 && !active, "16: commit of a visit that is not active"),
            (bears(visit), "16: commit after an undo row of the visit"),
        ],
        paper::ABORT => vec![
            (visit == 0, "16: abort of visit 0"),
            (visit != 0 && !active, "16: abort of a visit that is not active"),
            (before.highest_open(visit).is_some(), "16: abort with an open change"),
        ],
        // `whole_visits` has those of a hand-over of a whole visit.
        _ => Vec::new(),
    }
}

fn broken_undo(before: &Ledger, row: &Row) -> Labels {
    let Some(highest) = before.highest_open(row.visit) else {
        return vec![
            (row.visit == 0, "16: undo by visit 0"),
            (row.visit != 0, "16: undo by a visit that holds no open change"),
        ];
    };
    let is_open = before.open_changes().any(|change| change.row == row.undone);
    let is_other = row.undone != highest.row;
    let next = before.rows.len() as u16 + 1;
    vec![
        (row.undone == 0, "16: undo of row 0"),
        (row.undone >= next, "16: undo of a row that is not before it"),
        (is_other && is_open, "16: undo of another open change"),
        (
            is_other && !is_open && (1..next).contains(&row.undone),
            "16: undo of a row that is no open change",
        ),
        (!is_other && row.cell > 223, "16: undo of a cell above 223"),
        (!is_other && row.cell <= 223 && row.cell != highest.cell, "16: undo with another cell"),
        (!is_other && row.change != highest.amount, "16: undo with another change"),
    ]
}

fn exceeded_limits(before: &Ledger, row: &Row) -> Labels {
    let lacks = |rows| before.free() < before.reserve() + rows;
    let starts = before.starts_scope(row.visit, row.cell);
    match row.kind {
        paper::BEGIN => vec![
            (before.active.len() == 16, "17: begin, sixteen visits"),
            (lacks(2), "17: begin, free rows"),
        ],
        paper::CHANGE => vec![
            (starts && before.scopes_in_use() == 64, "17: change, scopes"),
            (lacks(2), "17: change, free rows"),
        ],
        paper::HAND_OVER => vec![(lacks(1), "17: hand-over, free rows")],
        _ => vec![(lacks(1), "17: hand-over of a whole visit, free rows")],
    }
}
