//! The conditions of 01's table "Refusals by place", and of the lines that 02's requests L2 and L8 add to it,
//! each judged by itself, on the paper's store before the call.

use super::Moment;
use crate::paper::{check_log, check_pages, rows_of};
use crate::store::{Call, Lengths, CELLS, RIGHT};

/// The labels of the conditions that hold, in checking order. A label begins with the number.
pub type Conditions = Vec<&'static str>;

fn holding(conditions: &[(bool, &'static str)]) -> Conditions {
    conditions.iter().filter(|(holds, _)| *holds).map(|(_, label)| *label).collect()
}

pub fn of_format(cells: &[i32], lent: Lengths) -> Conditions {
    let too_far = cells.iter().any(|grams| !(-1_000_000..=1_000_000).contains(grams));
    holding(&[(lent != RIGHT || cells.len() != CELLS, "1"), (too_far, "2")])
}

/// Of an opening that has not changed log and charts. A log that is not allowed is read as the rows that
/// it has; then nothing is said of power.
pub fn of_opening(lent: Lengths, log: &[u8], charts: &[u8], fuse: Option<u32>) -> Conditions {
    let (reasons, needed) = match check_log(log) {
        Ok(ledger) => (Vec::new(), ledger.reserve()),
        Err(bad) => (bad.reasons, 0),
    };
    let is_cut = fuse.is_some_and(|left| (left as usize) < needed);
    let bad_page = check_pages(charts, &rows_of(log)).is_err();
    holding(&[
        (lent != RIGHT, "1"),
        (reasons.contains(&3), "3"),
        (reasons.contains(&16), "16"),
        (reasons.contains(&17), "17"),
        (bad_page, "4"),
        (is_cut, "5"),
    ])
}

/// Of a call. `log` is the stored log, by which the active visits of a closed store are counted.
pub fn of_call(call: Call, lent: Lengths, before: &Moment, log: &[u8]) -> Conditions {
    let ledger = &before.ledger;
    let closed = !before.open;
    let inactive = |visit| !ledger.is_active(visit);
    let lacks = |rows| ledger.free() < ledger.reserve() + rows;
    let mut conditions = holding(&[(lent != RIGHT, "1"), (closed, "5")]);
    conditions.extend(match call {
        // 02, L7: "refusal 6 never occurs any more".
        Call::Begin => {
            let active = if closed { active_visits(log) } else { ledger.active.len() };
            holding(&[(active == 16, "7"), (lacks(2), "8")])
        }
        Call::Change { visit, cell, .. } => {
            let used_up = before.scopes.len() == 64 && ledger.starts_scope(visit, cell);
            holding(&[(inactive(visit), "9"), (cell > 223, "10"), (used_up, "11"), (lacks(2), "8")])
        }
        Call::HandOver { giver, receiver, cell } => holding(&[
            (inactive(giver), "9 giver"),
            (inactive(receiver), "9 receiver"),
            (giver == receiver, "12"),
            (cell > 223, "10"),
            (!ledger.holds(giver, cell), "13"),
            (lacks(1), "8"),
        ]),
        Call::HandOverAll { giver, receiver } => holding(&[
            (inactive(giver), "9 giver"),
            (inactive(receiver), "9 receiver"),
            (giver == receiver, "12"),
            (!ledger.holds_something(giver), "13"),
            (lacks(1), "8"),
        ]),
        Call::Commit { visit } | Call::Abort { visit } => holding(&[(inactive(visit), "9")]),
        Call::Force => Conditions::new(),
        Call::FlushPage { page } => holding(&[(page > 31, "14")]),
        Call::Read { cell } => holding(&[(cell > 223, "10")]),
    });
    conditions
}

/// Of a log that is allowed.
fn active_visits(log: &[u8]) -> usize {
    check_log(log).map_or(0, |ledger| ledger.active.len())
}
