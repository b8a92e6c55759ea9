//! The proved store: the functions of the archive that `tools/archive embed` writes, and the arrays that they
//! work on; the same as a `Store` of the comparison, which calls them by the inline functions of
//! `include/chart_store.h`; and the proved program `relog`, which `rt ci` builds, or `rt run` in `crates/relog`.

use crate::header;
use crate::numbers::{self, unpacked, Garbage};
use crate::store::{noise, with_length};
use crate::store::{Answer, Buffer, Call, Lengths, Scope, State, Store, RIGHT};
use std::io::Write;
use std::process::{Command, Stdio};

/// No fuse.
const NO_FUSE: u32 = u32::MAX;

/// The arrays of RAM, as the header's `chart_ram` has them.
#[repr(C)]
#[derive(Clone, PartialEq, Eq)]
pub struct Ram {
    pub head: [u32; 8],
    pub visits: [u16; 32],
    pub scopes: [u16; 448],
    pub tail: [u8; 1_024],
    pub copy: [u8; 1_024],
}

/// Bytes of the arrays of RAM.
pub const RAM_LENGTH: usize = size_of::<Ram>();

impl Ram {
    pub const ZERO: Ram =
        Ram { head: [0; 8], visits: [0; 32], scopes: [0; 448], tail: [0; 1_024], copy: [0; 1_024] };

    /// All of it, byte by byte.
    fn bytes(&self) -> Vec<u8> {
        let mut bytes = Vec::with_capacity(RAM_LENGTH);
        bytes.extend(self.head.iter().flat_map(|number| number.to_le_bytes()));
        let tables = self.visits.iter().chain(&self.scopes);
        bytes.extend(tables.flat_map(|number| number.to_le_bytes()));
        bytes.extend(self.tail);
        bytes.extend(self.copy);
        bytes
    }
}

/// The start of every call: the arrays of RAM, and log and charts, each as a pointer and a length.
macro_rules! calls {
    ($(fn $name:ident($($argument:ident: $kind:ty),*);)*) => {
        extern "C" {
            $(fn $name(
                head: *mut u32, visits: *mut u16, scopes: *mut u16, tail: *mut u8, copy: *mut u8,
                log: *mut u8, log_length: u64,
                charts: *mut u8, charts_length: u64,
                $($argument: $kind),*
            ) -> u64;)*
        }
    };
}

calls! {
    fn chart_format_on(cells: *const i32, cells_length: u64);
    fn chart_open_on(fuse: u32);
    fn chart_begin_on();
    fn chart_change_on(visit: u16, cell: u8, amount: i16);
    fn chart_hand_over_on(giver: u16, receiver: u16, cell: u8);
    fn chart_hand_over_all_on(giver: u16, receiver: u16);
    fn chart_commit_on(visit: u16);
    fn chart_abort_on(visit: u16);
    fn chart_force_on();
    fn chart_flush_on(page: u8);
    fn chart_read_on(cell: u8);
}

extern "C" {
    fn chart_redo_page(
        log: *const u8,
        log_length: u64,
        page: *mut u8,
        page_length: u64,
        number: u8,
    ) -> u64;
}

/// The forward part of an opening for one page alone: no call of a store.
#[inline(never)]
pub fn redo_page(log: &[u8], page: &mut [u8], number: u8) -> Answer {
    unpacked(unsafe {
        chart_redo_page(log.as_ptr(), log.len() as u64, page.as_mut_ptr(), page.len() as u64, number)
    })
}

/// A proved store with what it is lent.
#[derive(Clone)]
pub struct Proved {
    pub ram: Box<Ram>,
    pub log: Vec<u8>,
    pub charts: Vec<u8>,
}

/// Calls a function with the store's arrays and these arguments.
macro_rules! call {
    ($store:ident.$name:ident($($argument:expr),*)) => {
        unpacked(unsafe {
            $name(
                $store.ram.head.as_mut_ptr(),
                $store.ram.visits.as_mut_ptr(),
                $store.ram.scopes.as_mut_ptr(),
                $store.ram.tail.as_mut_ptr(),
                $store.ram.copy.as_mut_ptr(),
                $store.log.as_mut_ptr(), $store.log.len() as u64,
                $store.charts.as_mut_ptr(), $store.charts.len() as u64,
                $($argument),*
            )
        })
    };
}

impl Proved {
    pub fn new() -> Proved {
        Proved { ram: Box::new(Ram::ZERO), log: vec![0; RIGHT.log], charts: vec![0; RIGHT.charts] }
    }
}

/// A function of its own for each call: it lends the arrays to the store's function, as a program that
/// links the store does. `#[inline(never)]` gives callgrind a name to find it by.
impl Proved {
    #[inline(never)]
    pub fn format(&mut self, cells: &[i32]) -> Answer {
        call!(self.chart_format_on(cells.as_ptr(), cells.len() as u64))
    }

    #[inline(never)]
    pub fn open(&mut self, fuse: Option<u32>) -> Answer {
        call!(self.chart_open_on(fuse.unwrap_or(NO_FUSE)))
    }

    #[inline(never)]
    pub fn begin(&mut self) -> Answer {
        call!(self.chart_begin_on())
    }

    #[inline(never)]
    pub fn change(&mut self, visit: u16, cell: u8, amount: i16) -> Answer {
        call!(self.chart_change_on(visit, cell, amount))
    }

    #[inline(never)]
    pub fn hand_over(&mut self, giver: u16, receiver: u16, cell: u8) -> Answer {
        call!(self.chart_hand_over_on(giver, receiver, cell))
    }

    #[inline(never)]
    pub fn hand_over_all(&mut self, giver: u16, receiver: u16) -> Answer {
        call!(self.chart_hand_over_all_on(giver, receiver))
    }

    #[inline(never)]
    pub fn commit(&mut self, visit: u16) -> Answer {
        call!(self.chart_commit_on(visit))
    }

    #[inline(never)]
    pub fn abort(&mut self, visit: u16) -> Answer {
        call!(self.chart_abort_on(visit))
    }

    #[inline(never)]
    pub fn force(&mut self) -> Answer {
        call!(self.chart_force_on())
    }

    #[inline(never)]
    pub fn flush(&mut self, page: u8) -> Answer {
        call!(self.chart_flush_on(page))
    }

    #[inline(never)]
    pub fn read(&mut self, cell: u8) -> Answer {
        call!(self.chart_read_on(cell))
    }
}

impl Default for Proved {
    fn default() -> Proved {
        Proved::new()
    }
}

/// The proved store as a `Store` of the comparison: each call goes by the header for C.
#[derive(Clone, Default)]
pub struct ProvedStore {
    store: Proved,
    lengths: Lengths,
}

impl ProvedStore {
    pub fn new() -> ProvedStore {
        ProvedStore::default()
    }

    /// Makes one call with buffers of the lengths that the host was told, as `Host::lend` does. A call that
    /// is lent another length may write to none of them, not even behind the true bytes: that is a panic,
    /// which the comparison reports.
    fn with_lent(&mut self, call: impl FnOnce(&mut Proved) -> Answer) -> Answer {
        let lengths = std::mem::take(&mut self.lengths);
        if lengths == RIGHT {
            return call(&mut self.store);
        }
        let given = Proved {
            ram: self.store.ram.clone(),
            log: with_length(&self.store.log, log_length(lengths)),
            charts: with_length(&self.store.charts, lengths.charts),
        };
        let mut lent = given.clone();
        let answer = call(&mut lent);
        assert!(lent.ram == given.ram && lent.log == given.log && lent.charts == given.charts);
        answer
    }
}

/// The length of the log for these lengths. The copy and the scope table have their lengths by their types,
/// so that C cannot lend them with others: the log then misses its length by as much in their place.
fn log_length(lengths: Lengths) -> usize {
    if lengths.log != RIGHT.log || lengths.charts != RIGHT.charts {
        lengths.log
    } else if lengths.copy != RIGHT.copy {
        RIGHT.log - RIGHT.copy + lengths.copy
    } else {
        RIGHT.log - RIGHT.scopes + lengths.scopes
    }
}

impl Store for ProvedStore {
    fn name(&self) -> &'static str {
        "proved"
    }

    fn format(&mut self, cells: &[i32]) -> Answer {
        self.with_lent(|store| header::format(store, cells))
    }

    fn open(&mut self, fuse: Option<u32>) -> Answer {
        self.with_lent(|store| header::open(store, fuse))
    }

    fn call(&mut self, call: Call) -> Answer {
        self.with_lent(|store| match call {
            Call::Begin => header::begin(store),
            Call::Change { visit, cell, amount } => header::change(store, visit, cell, amount),
            Call::HandOver { giver, receiver, cell } => header::hand_over(store, giver, receiver, cell),
            Call::HandOverAll { giver, receiver } => header::hand_over_all(store, giver, receiver),
            Call::Commit { visit } => header::commit(store, visit),
            Call::Abort { visit } => header::abort(store, visit),
            Call::Force => header::force(store),
            Call::FlushPage { page } => header::flush(store, page),
            Call::Read { cell } => header::read(store, cell),
        })
    }

    fn log(&self) -> &[u8] {
        &self.store.log
    }

    fn charts(&self) -> &[u8] {
        &self.store.charts
    }

    fn copy(&self) -> &[u8] {
        &self.store.ram.copy
    }

    fn scopes(&self) -> Vec<Scope> {
        numbers::scopes(&self.store.ram.scopes)
    }

    fn state(&self) -> State {
        let Ram { head, visits, tail, .. } = self.store.ram.as_ref();
        numbers::state(head.map(u64::from), visits, tail)
    }

    fn ram(&self) -> Vec<u8> {
        self.store.ram.bytes()
    }

    fn redo_page(&self, log: &[u8], page: &mut [u8], number: u8) -> Option<Answer> {
        Some(header::redo_page(log, page, number))
    }

    fn copied(&self) -> Box<dyn Store> {
        Box::new(self.clone())
    }

    fn set_fuse(&mut self, fuse: Option<u32>) {
        let head = &mut self.store.ram.head;
        [head[1], head[2]] = [u32::from(fuse.is_some()), fuse.unwrap_or(0)];
    }

    fn log_mut(&mut self) -> &mut [u8] {
        &mut self.store.log
    }

    fn charts_mut(&mut self) -> &mut [u8] {
        &mut self.store.charts
    }

    fn lend(&mut self, buffer: Buffer, length: usize) {
        self.lengths.set(buffer, length);
    }

    fn scramble(&mut self, seed: u64) {
        let Garbage { head, visits, scopes, tail } = Garbage::new(seed);
        let ram = &mut self.store.ram;
        (ram.head, ram.visits) = (head.map(|number| number as u32), visits);
        (ram.scopes, ram.tail) = (scopes, tail);
        noise(seed, &mut ram.copy);
    }
}

/// What the proved program writes for a run file.
pub fn relog(file: &[u8]) -> String {
    let program = concat!(env!("CARGO_MANIFEST_DIR"), "/../crates/relog/out/relog");
    let mut child = Command::new(program)
        .stdin(Stdio::piped())
        .stdout(Stdio::piped())
        .spawn()
        .unwrap_or_else(|error| panic!("{program}: {error}"));
    // A program that stops reading early shows in what it writes.
    let _ = child.stdin.take().map(|mut stdin| stdin.write_all(file));
    let output = child.wait_with_output().expect("the program's output");
    String::from_utf8_lossy(&output.stdout).into_owned()
}
