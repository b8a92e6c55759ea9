//! The two stores behind one trait, called with nothing in between.

use compare::fast::{self, Fuse, Lent, Ram};
use compare::proved::{self, Proved};
use compare::store::{Answer, Scope, Writes, CELLS, PAGE, RIGHT};

/// A call of a store, a page redone alone, or a byte that the host writes to its memory.
#[derive(Clone, Copy, Debug)]
pub enum Call {
    /// A format with zeros.
    Format,
    /// An opening with no fuse.
    Open,
    /// An opening with so many writes in its fuse.
    OpenWith(u32),
    Begin,
    /// Visit, cell and grams.
    Change(u16, u8, i16),
    /// Giver, receiver and cell.
    HandOver(u16, u16, u8),
    /// Giver and receiver.
    HandOverAll(u16, u16),
    Commit(u16),
    Abort(u16),
    Force,
    Flush(u8),
    Read(u8),
    /// A copy of this page of the stored charts is redone alone.
    RedoPage(u8),
    /// A byte of the stored log, and one of the stored charts: where, and which.
    WriteLog(u16, u8),
    WriteCharts(u16, u8),
}

const ZEROS: [i32; CELLS] = [0; CELLS];

/// A chart store with its buffers.
pub trait Charts {
    fn new() -> Self;
    fn make(&mut self, call: Call) -> Answer;
    /// The same as `make`, as a function with a name by which callgrind finds it.
    fn make_counted(&mut self, call: Call) -> Answer;
    fn log(&self) -> &[u8];
    fn charts(&self) -> &[u8];
}

/// The efficient store of `compare`.
pub struct Efficient {
    ram: Ram,
    log: Vec<u8>,
    charts: Vec<u8>,
    copy: Vec<u8>,
    scopes: Vec<Scope>,
}

impl Efficient {
    fn new() -> Efficient {
        Efficient {
            ram: Ram::CLOSED,
            log: vec![0; RIGHT.log],
            charts: vec![0; RIGHT.charts],
            copy: vec![0; RIGHT.copy],
            scopes: vec![Scope::default(); RIGHT.scopes],
        }
    }
}

/// A function of its own for each call, as `Proved` has them: each lends the buffers to the function of the
/// store. `#[inline(never)]` gives callgrind a name to find it by.
impl Efficient {
    #[inline(always)]
    fn lent(&mut self) -> (&mut Ram, Lent<'_>) {
        let Efficient { ram, log, charts, copy, scopes } = self;
        (ram, Lent::new(log, charts, copy, scopes))
    }

    #[inline(never)]
    fn format(&mut self, cells: &[i32]) -> Answer {
        let (ram, mut lent) = self.lent();
        fast::format(ram, &mut lent, cells)
    }

    #[inline(never)]
    fn open(&mut self, fuse: Option<u32>) -> Answer {
        let (ram, mut lent) = self.lent();
        fast::open(ram, &mut lent, fuse.map_or(Fuse::Unlimited, Fuse::Left))
    }

    #[inline(never)]
    fn begin(&mut self) -> Answer {
        let (ram, mut lent) = self.lent();
        fast::begin(ram, &mut lent)
    }

    #[inline(never)]
    fn change(&mut self, visit: u16, cell: u8, amount: i16) -> Answer {
        let (ram, mut lent) = self.lent();
        fast::change(ram, &mut lent, visit, cell, amount)
    }

    #[inline(never)]
    fn hand_over(&mut self, giver: u16, receiver: u16, cell: u8) -> Answer {
        let (ram, mut lent) = self.lent();
        fast::hand_over(ram, &mut lent, giver, receiver, cell)
    }

    #[inline(never)]
    fn hand_over_all(&mut self, giver: u16, receiver: u16) -> Answer {
        let (ram, mut lent) = self.lent();
        fast::hand_over_all(ram, &mut lent, giver, receiver)
    }

    #[inline(never)]
    fn commit(&mut self, visit: u16) -> Answer {
        let (ram, mut lent) = self.lent();
        fast::commit(ram, &mut lent, visit)
    }

    #[inline(never)]
    fn abort(&mut self, visit: u16) -> Answer {
        let (ram, mut lent) = self.lent();
        fast::abort(ram, &mut lent, visit)
    }

    #[inline(never)]
    fn force(&mut self) -> Answer {
        let (ram, mut lent) = self.lent();
        fast::force(ram, &mut lent)
    }

    #[inline(never)]
    fn flush(&mut self, page: u8) -> Answer {
        let (ram, mut lent) = self.lent();
        fast::flush_page(ram, &mut lent, page)
    }

    #[inline(never)]
    fn read(&mut self, cell: u8) -> Answer {
        let (ram, lent) = self.lent();
        fast::read(ram, &lent, cell)
    }
}

/// Lends log and page to the efficient store, as `compare::proved::redo_page` does to the proved one.
#[inline(never)]
fn redo_page(log: &[u8], page: &mut [u8], number: u8) -> Answer {
    fast::redo_page(log, page, number)
}

/// A copy of a page of the charts is redone alone. The value is a sum of its bytes, by which the two stores
/// are compared.
#[inline(always)]
fn redone(charts: &[u8], number: u8, redo: impl FnOnce(&mut [u8]) -> Answer) -> Answer {
    let mut page = [0; PAGE];
    page.copy_from_slice(&charts[PAGE * usize::from(number)..][..PAGE]);
    let answer = redo(&mut page);
    let value = page.iter().zip(1..).map(|(byte, place)| i64::from(*byte) * place).sum();
    Answer { value, ..answer }
}

/// A store has its functions for the calls by the same names.
macro_rules! charts {
    ($store:ident, $redo_page:path, $counted:literal) => {
        impl Charts for $store {
            fn new() -> $store {
                $store::new()
            }

            #[inline(always)]
            fn make(&mut self, call: Call) -> Answer {
                match call {
                    Call::Format => self.format(&ZEROS),
                    Call::Open => self.open(None),
                    Call::OpenWith(left) => self.open(Some(left)),
                    Call::Begin => self.begin(),
                    Call::Change(visit, cell, amount) => self.change(visit, cell, amount),
                    Call::HandOver(giver, receiver, cell) => self.hand_over(giver, receiver, cell),
                    Call::HandOverAll(giver, receiver) => self.hand_over_all(giver, receiver),
                    Call::Commit(visit) => self.commit(visit),
                    Call::Abort(visit) => self.abort(visit),
                    Call::Force => self.force(),
                    Call::Flush(page) => self.flush(page),
                    Call::Read(cell) => self.read(cell),
                    Call::RedoPage(number) => {
                        redone(&self.charts, number, |page| $redo_page(&self.log, page, number))
                    }
                    Call::WriteLog(at, byte) => written(&mut self.log, at, byte),
                    Call::WriteCharts(at, byte) => written(&mut self.charts, at, byte),
                }
            }

            #[inline(never)]
            #[export_name = $counted]
            fn make_counted(&mut self, call: Call) -> Answer {
                self.make(call)
            }

            fn log(&self) -> &[u8] {
                &self.log
            }

            fn charts(&self) -> &[u8] {
                &self.charts
            }
        }
    };
}

charts!(Proved, proved::redo_page, "counted_proved");
charts!(Efficient, redo_page, "counted_efficient");

fn written(bytes: &mut [u8], at: u16, byte: u8) -> Answer {
    bytes[usize::from(at)] = byte;
    Answer { number: 0, value: 0, writes: Writes::NONE }
}
