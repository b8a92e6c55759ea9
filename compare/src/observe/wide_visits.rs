//! Visits whose number has a high byte (document 02, request L7).

use crate::cover::Cover;
use crate::paper::Ledger;
use crate::store::{Answer, Call};

/// The visits that a call names.
fn named(call: Call) -> Vec<u16> {
    match call {
        Call::Change { visit, .. } | Call::Commit { visit } | Call::Abort { visit } => vec![visit],
        Call::HandOver { giver, receiver, .. } | Call::HandOverAll { giver, receiver } => {
            vec![giver, receiver]
        }
        Call::Begin | Call::Force | Call::FlushPage { .. } | Call::Read { .. } => vec![],
    }
}

fn one_low_byte(one: u16, two: u16) -> bool {
    one != two && one % 256 == two % 256
}

/// A call of a store that came to this ledger before it.
pub fn call(cover: &mut Cover, call: Call, answer: Answer, before: &Ledger) {
    let is_wide = named(call).iter().any(|visit| *visit > 255);
    let is_done = answer.number == 0;
    match call {
        Call::HandOver { .. } => {
            cover.shape_if(is_done && is_wide, "hand-over from or to a visit above 255")
        }
        Call::HandOverAll { .. } => {
            cover.shape_if(is_done && is_wide, "whole visit above 255 handed over")
        }
        Call::Commit { .. } => cover.shape_if(is_done && is_wide, "commit of a visit above 255"),
        _ => {}
    }
    let is_alike = |visit: &u16| before.active.iter().any(|active| one_low_byte(*active, *visit));
    let alike = answer.number == 9 && named(call).iter().any(is_alike);
    cover.shape_if(alike, "inactive visit with the low byte of an active one");
    let is_active = before.active.iter().any(|visit| *visit > 255);
    cover.shape_if(answer.number == 5 && is_active, "cut while a visit above 255 is active");
}

/// The store after a call that was done.
pub fn store(cover: &mut Cover, ledger: &Ledger) {
    cover.shape_if(ledger.begin_rows() > 255, "more than 255 visits begun");
    let active = &ledger.active;
    let is_alike = |visit: &u16| active.iter().any(|other| one_low_byte(*other, *visit));
    cover.shape_if(active.iter().any(is_alike), "two active visits with one low byte");
}
