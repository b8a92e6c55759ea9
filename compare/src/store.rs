//! What the comparison asks of an implementation of the chart store.
//!
//! An implementation takes part by the trait `Store`: it owns the buffers that a host would lend to
//! each call (log, charts, copy, scope table) and its state in RAM. `Host` does the lending.

use crate::prng::Rng;

/// Lengths of the lent buffers: bytes, and entries of the scope table.
#[derive(Clone, Copy, PartialEq, Eq, Debug)]
pub struct Lengths {
    pub log: usize,
    pub charts: usize,
    pub copy: usize,
    pub scopes: usize,
}

/// The lengths of document 01.
pub const RIGHT: Lengths = Lengths { log: 65_536, charts: 1_024, copy: 1_024, scopes: 64 };

impl Default for Lengths {
    fn default() -> Lengths {
        RIGHT
    }
}

/// Cells that a format takes.
pub const CELLS: usize = 224;
/// Bytes of a row, and of a page.
pub const ROW: usize = 16;
pub const PAGE: usize = 32;
/// Rows that the log has, that the tail has, visits that are active at a time, all at most.
pub const ROWS: usize = 4_096;
pub const TAIL_ROWS: usize = 64;
pub const MOST_ACTIVE: usize = 16;

#[derive(Clone, Copy, PartialEq, Eq, Debug)]
pub enum Buffer {
    Log,
    Charts,
    Copy,
    Scopes,
}

impl Lengths {
    pub fn get(&self, buffer: Buffer) -> usize {
        match buffer {
            Buffer::Log => self.log,
            Buffer::Charts => self.charts,
            Buffer::Copy => self.copy,
            Buffer::Scopes => self.scopes,
        }
    }

    pub fn set(&mut self, buffer: Buffer, length: usize) {
        match buffer {
            Buffer::Log => self.log = length,
            Buffer::Charts => self.charts = length,
            Buffer::Copy => self.copy = length,
            Buffer::Scopes => self.scopes = length,
        }
    }
}

/// The calls of a session after its opening.
#[derive(Clone, Copy, PartialEq, Eq, Debug)]
pub enum Call {
    Begin,
    Change { visit: u16, cell: u8, amount: i16 },
    HandOver { giver: u16, receiver: u16, cell: u8 },
    HandOverAll { giver: u16, receiver: u16 },
    Commit { visit: u16 },
    Abort { visit: u16 },
    Force,
    FlushPage { page: u8 },
    Read { cell: u8 },
}

/// Refusal number, 0 for none, the value that belongs to it, and the stored writes that the call landed.
#[derive(Clone, Copy, PartialEq, Eq, Debug)]
pub struct Answer {
    pub number: u8,
    pub value: i64,
    pub writes: Writes,
}

/// Stored writes that landed: rows of the log, and pages of the charts.
#[derive(Clone, Copy, PartialEq, Eq, Debug, Default)]
pub struct Writes {
    pub rows: u16,
    pub pages: u8,
}

impl Writes {
    pub const NONE: Writes = Writes { rows: 0, pages: 0 };

    /// How many they are: each row and each page is one write.
    pub fn count(self) -> u32 {
        u32::from(self.rows) + u32::from(self.pages)
    }
}

/// An entry of the scope table. An unused entry has all fields zero.
#[derive(Clone, Copy, PartialEq, Eq, Debug, Default)]
pub struct Scope {
    pub maker: u16,
    pub holder: u16,
    pub cell: u8,
    /// The row of the scope's first change.
    pub first: u16,
    /// The row of its last change that is not undone, 0 for none.
    pub last: u16,
    /// Whether it was ever handed over.
    pub handed: bool,
    /// Its changes that are not undone.
    pub count: u16,
}

/// What a store keeps in RAM beside the copy and the entries of the scope table. A closed store has
/// `State::CLOSED`.
#[derive(Clone, PartialEq, Eq, Debug)]
pub struct State {
    pub open: bool,
    /// The stored writes that still land, or none if they are not counted.
    pub fuse: Option<u32>,
    /// Rows of the stored log, and of the tail.
    pub stored: usize,
    pub waiting: usize,
    /// Visits begun, visits active, and scopes in use.
    pub begun: usize,
    pub active: usize,
    pub used: usize,
    /// The active visits, ascending, and zeros after them.
    pub visits: [u16; MOST_ACTIVE],
    /// The bytes of the rows that wait, and zeros after them.
    pub tail: [u8; TAIL_ROWS * ROW],
}

impl State {
    pub const CLOSED: State = State {
        open: false,
        fuse: None,
        stored: 0,
        waiting: 0,
        begun: 0,
        active: 0,
        used: 0,
        visits: [0; MOST_ACTIVE],
        tail: [0; TAIL_ROWS * ROW],
    };

    /// Whether rows, active visits and scopes are as many as log, tail and tables have room for.
    pub fn is_within_limits(&self) -> bool {
        self.waiting <= TAIL_ROWS
            && self.stored <= ROWS - self.waiting
            && self.active <= MOST_ACTIVE
            && self.used <= RIGHT.scopes
    }
}

pub trait Store {
    /// The name in reports.
    fn name(&self) -> &'static str;

    fn format(&mut self, cells: &[i32]) -> Answer;
    fn open(&mut self, fuse: Option<u32>) -> Answer;
    fn call(&mut self, call: Call) -> Answer;

    fn log(&self) -> &[u8];
    fn charts(&self) -> &[u8];
    fn copy(&self) -> &[u8];
    /// All entries of the scope table, unused ones too, in any order.
    fn scopes(&self) -> Vec<Scope>;
    fn state(&self) -> State;
    /// All that the store has in RAM, byte by byte: state, copy and scope table. A refusal changes none of
    /// them, and a failure of power leaves zeros.
    fn ram(&self) -> Vec<u8>;
    /// Whether RAM is that of an open store whose counters are within their limits. In any other RAM every
    /// call but format and open answers 5 and changes nothing.
    fn is_ready(&self) -> bool {
        let state = self.state();
        state.open && state.is_within_limits()
    }

    /// 02, L3: lent this log and one page's bytes alone, with its number, leaves the page as an opening has
    /// it before going backward. None where the implementation has no function for it.
    fn redo_page(&self, _log: &[u8], _page: &mut [u8], _number: u8) -> Option<Answer> {
        None
    }
    /// The copy as an opening has it before going backward, or the refusal that the opening gets before. None
    /// where the implementation does not show it.
    fn forward(&self) -> Option<Result<Vec<u8>, Answer>> {
        None
    }

    /// The same store once more, memory and RAM.
    fn copied(&self) -> Box<dyn Store>;
    /// Puts another fuse in the place of the one that runs.
    fn set_fuse(&mut self, fuse: Option<u32>);

    /// The stored log, for a host that writes there.
    fn log_mut(&mut self) -> &mut [u8];
    /// The stored charts, for a host that writes there.
    fn charts_mut(&mut self) -> &mut [u8];
    /// The next format, opening or call, and that one alone, is lent this buffer with this length.
    fn lend(&mut self, buffer: Buffer, length: usize);
    /// Puts arbitrary contents into everything in RAM: state, copy and scope table. The copy's bytes
    /// are those of `noise`, so that they are the same in every store.
    fn scramble(&mut self, seed: u64);
}

/// The bytes that every store's copy has after it was scrambled with this seed: marks and cells of any
/// size, the greatest and the least among them.
pub fn noise(seed: u64, copy: &mut [u8]) {
    let mut rng = Rng::new(seed);
    for four in copy.chunks_exact_mut(4) {
        let any = rng.draw() as i32;
        four.copy_from_slice(&rng.pick(&[any, any, i32::MAX, i32::MIN]).to_le_bytes());
    }
}

/// The buffers of a host, and the lengths with which it lends them to the next call.
#[derive(Clone)]
pub struct Host {
    pub log: Vec<u8>,
    pub charts: Vec<u8>,
    pub copy: Vec<u8>,
    pub lengths: Lengths,
}

impl Host {
    pub fn new() -> Host {
        Host {
            log: vec![0; RIGHT.log],
            charts: vec![0; RIGHT.charts],
            copy: vec![0; RIGHT.copy],
            lengths: RIGHT,
        }
    }

    /// Calls `call` with log, charts, copy and the number of scope entries to lend. A buffer of
    /// another length has the true bytes as far as they go; what the call writes there is kept, so
    /// that a refused call which changes something is found out.
    pub fn lend<R>(&mut self, call: impl FnOnce(&mut [u8], &mut [u8], &mut [u8], usize) -> R) -> R {
        let lengths = std::mem::replace(&mut self.lengths, RIGHT);
        if lengths == RIGHT {
            return call(&mut self.log, &mut self.charts, &mut self.copy, RIGHT.scopes);
        }
        let mut log = with_length(&self.log, lengths.log);
        let mut charts = with_length(&self.charts, lengths.charts);
        let mut copy = with_length(&self.copy, lengths.copy);
        let result = call(&mut log, &mut charts, &mut copy, lengths.scopes);
        take_over(&mut self.log, &log);
        take_over(&mut self.charts, &charts);
        take_over(&mut self.copy, &copy);
        result
    }
}

impl Default for Host {
    fn default() -> Host {
        Host::new()
    }
}

/// The items as far as they go, then items of zero.
pub fn with_length<T: Copy + Default>(items: &[T], length: usize) -> Vec<T> {
    let mut out = items.to_vec();
    out.resize(length, T::default());
    out
}

/// Takes over what two lists have in common in length.
pub fn take_over<T: Copy>(items: &mut [T], from: &[T]) {
    let common = items.len().min(from.len());
    items[..common].copy_from_slice(&from[..common]);
}
