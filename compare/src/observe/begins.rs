//! Begins that are refused while rows wait, and begins whose number comes after a cut or an opening.

use super::Moment;
use crate::cover::Cover;
use crate::paper::{rows_of, ABORT};
use crate::store::{Answer, Call};

/// What has happened since a begin was last done.
#[derive(Default)]
pub struct SinceBegin {
    /// Power failed in a begin.
    cut: bool,
    /// An opening ended a visit that had no row but its begin.
    ended: bool,
}

impl SinceBegin {
    /// A ready opening found so many rows and left this log.
    pub fn opened(&mut self, log: &[u8], stored: usize) {
        let rows = rows_of(log);
        let (found, new) = rows.split_at(stored);
        let mut ended = new.iter().filter(|row| row.kind == ABORT).map(|row| row.visit);
        self.ended |= ended.any(|visit| {
            let of_visit = found.iter().filter(|row| row.visit == visit || row.receiver == visit);
            of_visit.count() == 1
        });
    }

    pub fn call(&mut self, cover: &mut Cover, call: Call, answer: Answer, before: &Moment) {
        if call != Call::Begin {
            return;
        }
        match answer.number {
            0 => {
                cover.shape_if(self.cut, "begin done after one that was cut");
                cover.shape_if(self.ended, "begin done after an opening ended a visit just begun");
                *self = SinceBegin::default();
            }
            5 if before.open => self.cut = true,
            6..=8 if before.waiting > 0 => {
                cover.shape_if(true, "begin refused while rows wait");
                cover.shape_if(before.waiting == 64, "begin refused while 64 rows wait");
                let burnt = before.fuse == Some(0);
                cover.shape_if(burnt, "begin refused while rows wait and no write is left");
            }
            _ => {}
        }
    }
}
