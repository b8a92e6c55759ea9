//! All of a store, byte by byte, and what a call may leave of it.

use crate::store::{Call, Store};

/// A store's log, charts and RAM at a moment.
pub struct Memory {
    pub log: Vec<u8>,
    pub charts: Vec<u8>,
    pub ram: Vec<u8>,
}

impl Memory {
    pub fn of(store: &dyn Store) -> Memory {
        Memory { log: store.log().to_vec(), charts: store.charts().to_vec(), ram: store.ram() }
    }
}

/// What a call leaves of a part of a store's memory.
#[derive(Clone, Copy)]
enum Part {
    Any,
    Same,
    Zeros,
}

impl Part {
    /// The first byte that is not left as it should be.
    fn wrong(self, before: &[u8], after: &[u8]) -> Option<usize> {
        match self {
            Part::Any => None,
            Part::Same if before == after => None,
            Part::Same => (0..).find(|at| before.get(*at) != after.get(*at)),
            Part::Zeros => after.iter().position(|byte| *byte != 0),
        }
    }
}

/// What a format, an opening or a call leaves of a store.
#[derive(Clone, Copy)]
pub struct Leaves {
    log: Part,
    charts: Part,
    ram: Part,
}

impl Leaves {
    /// "A refused call changes nothing."
    pub const REFUSED: Leaves = Leaves { log: Part::Same, charts: Part::Same, ram: Part::Same };
    /// "After 3 or 4 log and charts are unchanged, while copy, tail and scopes end as after a power
    /// failure and the store is closed." 02, L8: "16 and 17 leave everything as 3 does."
    pub const REJECTED: Leaves = Leaves { log: Part::Same, charts: Part::Same, ram: Part::Zeros };
    /// Rows may land before power fails. A page never does: it is the last write of its call.
    pub const CUT: Leaves = Leaves { log: Part::Any, charts: Part::Same, ram: Part::Zeros };
    /// "Marks 0, blank log .. Copy, tail and scopes end as after a power failure."
    pub const FORMATTED: Leaves = Leaves { log: Part::Zeros, charts: Part::Any, ram: Part::Zeros };
    /// An opening writes no page.
    pub const OPENED: Leaves = Leaves { log: Part::Any, charts: Part::Same, ram: Part::Any };

    /// A call that is done: a flush alone writes a page, and a read writes nothing.
    pub fn done(call: Call) -> Leaves {
        match call {
            Call::Read { .. } => Leaves::REFUSED,
            Call::FlushPage { .. } => Leaves { charts: Part::Any, ..Leaves::OPENED },
            _ => Leaves::OPENED,
        }
    }

    /// Names the first byte that is not left as it should be.
    pub fn judge(&self, before: &Memory, after: &Memory) -> Result<(), String> {
        judge("log", self.log, &before.log, &after.log)?;
        judge("charts", self.charts, &before.charts, &after.charts)?;
        self.judge_ram(&before.ram, &after.ram)
    }

    pub fn judge_ram(&self, before: &[u8], after: &[u8]) -> Result<(), String> {
        judge("RAM", self.ram, before, after)
    }
}

fn judge(name: &str, part: Part, before: &[u8], after: &[u8]) -> Result<(), String> {
    let byte = |bytes: &[u8], at| bytes.get(at).map_or("nothing".into(), u8::to_string);
    match part.wrong(before, after) {
        None => Ok(()),
        Some(at) => {
            let (was, is) = (byte(before, at), byte(after, at));
            Err(format!("byte {at} of its {name} goes from {was} to {is}"))
        }
    }
}
