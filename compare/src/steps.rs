//! A case is a list of steps: what a host does with a store, one thing after the other.

use crate::store::{Buffer, Call};

#[derive(Clone, PartialEq, Debug)]
pub enum Step {
    Format(Vec<i32>),
    Open(Option<u32>),
    Call(Call),
    /// Lends the next format, opening or call, and that one alone, a buffer of this length.
    Lend(Buffer, usize),
    /// Puts arbitrary contents into everything in RAM.
    Scramble(u64),
    /// Writes these rows to the stored log, and zeros after them.
    WriteLog(Vec<[u8; 16]>),
    /// Writes one byte of the stored log.
    WriteLogByte(usize, u8),
    /// Writes bytes of the stored charts.
    WriteCharts(usize, Vec<u8>),
    /// Redoes these pages of the stored charts alone, one after the other, and leaves the store as it is.
    RedoPages(Vec<u8>),
    /// Redoes a page of this number alone, with a log and a page of these lengths.
    RedoLent {
        log: usize,
        page: usize,
        number: u8,
    },
    /// Calls on arbitrary RAM or on altered buffers: `arena/careless.rs` says what is asked of them.
    Garbage(u64, Vec<Call>),
}

pub fn open(fuse: Option<u32>) -> Step {
    Step::Open(fuse)
}

pub fn begin() -> Step {
    Step::Call(Call::Begin)
}

pub fn change(visit: u16, cell: u8, amount: i16) -> Step {
    Step::Call(Call::Change { visit, cell, amount })
}

pub fn hand_over(giver: u16, receiver: u16, cell: u8) -> Step {
    Step::Call(Call::HandOver { giver, receiver, cell })
}

pub fn hand_over_all(giver: u16, receiver: u16) -> Step {
    Step::Call(Call::HandOverAll { giver, receiver })
}

pub fn commit(visit: u16) -> Step {
    Step::Call(Call::Commit { visit })
}

pub fn abort(visit: u16) -> Step {
    Step::Call(Call::Abort { visit })
}

pub fn force() -> Step {
    Step::Call(Call::Force)
}

pub fn flush(page: u8) -> Step {
    Step::Call(Call::FlushPage { page })
}

pub fn read(cell: u8) -> Step {
    Step::Call(Call::Read { cell })
}

/// The name of a call as 01's table of refusals has it, and for the hand-over of a whole visit a name of
/// its own.
pub fn place(call: Call) -> &'static str {
    match call {
        Call::Begin => "begin",
        Call::Change { .. } => "change",
        Call::HandOver { .. } => "hand over",
        Call::HandOverAll { .. } => "hand over all",
        Call::Commit { .. } => "commit",
        Call::Abort { .. } => "abort",
        Call::Force => "force",
        Call::FlushPage { .. } => "flush",
        Call::Read { .. } => "read",
    }
}
