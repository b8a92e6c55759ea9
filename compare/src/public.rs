//! The public calls of the proved store: the functions for Rattle, which are lent the scope table as a
//! slice of structs. They are reached by the function of crate `public_calls`, from the archive that
//! `tools/archive public_calls` writes, which makes state and table of the numbers that it is handed.

use crate::numbers::{self, unpacked, Garbage, ENTRY, PLACE};
use crate::store::{noise, with_length};
use crate::store::{Answer, Buffer, Call, Lengths, Scope, State, Store, Writes, RIGHT};

/// Entries of the greatest scope table that can be lent.
const MOST_ENTRIES: usize = 128;

extern "C" {
    fn public_call_on(
        head: *mut u64,
        visits: *mut u16,
        tail: *mut u8,
        counts: *mut u64,
        scopes: *mut u16,
        scopes_length: u64,
        copy: *mut u8,
        copy_length: u64,
        log: *mut u8,
        log_length: u64,
        charts: *mut u8,
        charts_length: u64,
        cells: *const i32,
        cells_length: u64,
        code: u8,
        visit: u16,
        receiver: u16,
        cell: u8,
        amount: i16,
        limited: u8,
        writes: u32,
    ) -> u64;
}

/// What is asked for, in numbers: a format has the code 0, the calls those of run files, an opening a code
/// that no call has.
#[derive(Clone, Copy, Default)]
struct Asked {
    code: u8,
    visit: u16,
    receiver: u16,
    cell: u8,
    amount: i16,
    limited: u8,
    writes: u32,
}

/// The code of an opening. Every code that is neither a format's nor a call's is taken for one.
const OPENING: u8 = 255;

impl Asked {
    fn opening(fuse: Option<u32>) -> Asked {
        let limited = u8::from(fuse.is_some());
        Asked { code: OPENING, limited, writes: fuse.unwrap_or(0), ..Asked::default() }
    }

    fn of(call: Call) -> Asked {
        let none = Asked::default();
        match call {
            Call::Begin => Asked { code: 1, ..none },
            Call::Change { visit, cell, amount } => Asked { code: 2, visit, cell, amount, ..none },
            Call::HandOver { giver, receiver, cell } => {
                Asked { code: 3, visit: giver, receiver, cell, ..none }
            }
            Call::HandOverAll { giver, receiver } => Asked { code: 9, visit: giver, receiver, ..none },
            Call::Commit { visit } => Asked { code: 4, visit, ..none },
            Call::Abort { visit } => Asked { code: 5, visit, ..none },
            Call::FlushPage { page } => Asked { code: 6, cell: page, ..none },
            Call::Force => Asked { code: 7, ..none },
            Call::Read { cell } => Asked { code: 8, cell, ..none },
        }
    }
}

/// All that a call is handed: the state in numbers, and what is lent.
#[derive(Clone, PartialEq, Eq)]
struct Handed {
    head: [u64; 8],
    visits: [u16; 32],
    tail: [u8; 1_024],
    scopes: Vec<u16>,
    copy: Vec<u8>,
    log: Vec<u8>,
    charts: Vec<u8>,
}

impl Handed {
    fn ask(&mut self, asked: Asked, cells: &[i32]) -> Answer {
        let Asked { code, visit, receiver, cell, amount, limited, writes } = asked;
        let mut counts = [0; 2];
        let packed = unsafe {
            public_call_on(
                self.head.as_mut_ptr(),
                self.visits.as_mut_ptr(),
                self.tail.as_mut_ptr(),
                counts.as_mut_ptr(),
                self.scopes.as_mut_ptr(),
                self.scopes.len() as u64,
                self.copy.as_mut_ptr(),
                self.copy.len() as u64,
                self.log.as_mut_ptr(),
                self.log.len() as u64,
                self.charts.as_mut_ptr(),
                self.charts.len() as u64,
                cells.as_ptr(),
                cells.len() as u64,
                code,
                visit,
                receiver,
                cell,
                amount,
                limited,
                writes,
            )
        };
        let [rows, pages] = counts;
        // A count that is too great for its type is equal to none of the paper's.
        let rows = u16::try_from(rows).unwrap_or(u16::MAX);
        let pages = u8::try_from(pages).unwrap_or(u8::MAX);
        Answer { writes: Writes { rows, pages }, ..unpacked(packed) }
    }

    /// The same with buffers of these lengths.
    fn with_lengths(&self, lengths: Lengths) -> Handed {
        assert!(lengths.scopes <= MOST_ENTRIES);
        Handed {
            scopes: with_length(&self.scopes, ENTRY * lengths.scopes),
            copy: with_length(&self.copy, lengths.copy),
            log: with_length(&self.log, lengths.log),
            charts: with_length(&self.charts, lengths.charts),
            ..*self
        }
    }
}

/// The public calls as a `Store` of the comparison.
#[derive(Clone)]
pub struct PublicStore {
    handed: Handed,
    lengths: Lengths,
}

impl PublicStore {
    pub fn new() -> PublicStore {
        let handed = Handed {
            head: [0; 8],
            visits: [0; 32],
            tail: [0; 1_024],
            scopes: vec![0; ENTRY * RIGHT.scopes],
            copy: vec![0; RIGHT.copy],
            log: vec![0; RIGHT.log],
            charts: vec![0; RIGHT.charts],
        };
        PublicStore { handed, lengths: RIGHT }
    }

    /// Makes one call with buffers of the lengths that the host was told, as `Host::lend` does. A call that
    /// is lent another length may change nothing that it is handed, not even behind the true bytes: that is
    /// a panic, which the comparison reports.
    fn ask(&mut self, asked: Asked, cells: &[i32]) -> Answer {
        let lengths = std::mem::take(&mut self.lengths);
        if lengths == RIGHT {
            return self.handed.ask(asked, cells);
        }
        let given = self.handed.with_lengths(lengths);
        let mut lent = given.clone();
        let answer = lent.ask(asked, cells);
        assert!(lent == given);
        answer
    }
}

impl Default for PublicStore {
    fn default() -> PublicStore {
        PublicStore::new()
    }
}

impl Store for PublicStore {
    fn name(&self) -> &'static str {
        "public"
    }

    fn format(&mut self, cells: &[i32]) -> Answer {
        self.ask(Asked::default(), cells)
    }

    fn open(&mut self, fuse: Option<u32>) -> Answer {
        self.ask(Asked::opening(fuse), &[])
    }

    fn call(&mut self, call: Call) -> Answer {
        self.ask(Asked::of(call), &[])
    }

    fn log(&self) -> &[u8] {
        &self.handed.log
    }

    fn charts(&self) -> &[u8] {
        &self.handed.charts
    }

    fn copy(&self) -> &[u8] {
        &self.handed.copy
    }

    fn scopes(&self) -> Vec<Scope> {
        numbers::scopes(&self.handed.scopes)
    }

    fn state(&self) -> State {
        numbers::state(self.handed.head, &self.handed.visits, &self.handed.tail)
    }

    fn ram(&self) -> Vec<u8> {
        let Handed { head, visits, tail, scopes, copy, .. } = &self.handed;
        let mut ram = Vec::with_capacity(3_072);
        ram.extend(head.iter().flat_map(|number| number.to_le_bytes()));
        ram.extend(visits.iter().chain(scopes).flat_map(|number| number.to_le_bytes()));
        ram.extend(tail);
        ram.extend(copy);
        ram
    }

    fn copied(&self) -> Box<dyn Store> {
        Box::new(self.clone())
    }

    fn set_fuse(&mut self, fuse: Option<u32>) {
        let head = &mut self.handed.head;
        [head[1], head[2]] = [u64::from(fuse.is_some()), fuse.map_or(0, u64::from)];
    }

    fn log_mut(&mut self) -> &mut [u8] {
        &mut self.handed.log
    }

    fn charts_mut(&mut self) -> &mut [u8] {
        &mut self.handed.charts
    }

    fn lend(&mut self, buffer: Buffer, length: usize) {
        self.lengths.set(buffer, length);
    }

    /// Any numbers that the fields of state and table hold: a flag is 0 or 1, and without a fuse no writes
    /// are left. The counters have 64 bits.
    fn scramble(&mut self, seed: u64) {
        let Garbage { mut head, mut visits, mut scopes, tail } = Garbage::new(seed);
        let [phase, kind, left, _, _, begun, _, _] = &mut head;
        *phase = u64::from(*phase != 0);
        *kind = u64::from(*kind != 0);
        *left = *kind * (*left % (1 << 32));
        *begun %= 1 << 16;
        visits.chunks_exact_mut(PLACE).for_each(|place| place[1] %= 2);
        for entry in scopes.chunks_exact_mut(ENTRY) {
            entry[2] %= 256;
            entry[5] %= 2;
        }
        let handed = &mut self.handed;
        (handed.head, handed.visits, handed.tail) = (head, visits, tail);
        handed.scopes.copy_from_slice(&scopes);
        noise(seed, &mut handed.copy);
    }
}
