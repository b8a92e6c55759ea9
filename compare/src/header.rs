//! The calls of `include/chart_store.h` over the memory of a proved store: the header's own inline functions,
//! which `header.c` calls; and what C has for the names of the header.

use crate::proved::{Proved, Ram};
use crate::store::{Answer, Writes};
use std::ffi::{c_char, c_int, c_uint, CStr};

/// An answer as the header's functions take it apart.
#[repr(C)]
#[derive(Clone, Copy, PartialEq, Eq, Debug, Default)]
pub struct Parts {
    pub number: c_int,
    pub value: i32,
    pub rows: c_uint,
    pub pages: c_uint,
}

impl Parts {
    /// A number or a count that is too great for its type is none of the paper's.
    fn answer(self) -> Answer {
        let rows = u16::try_from(self.rows).unwrap_or(u16::MAX);
        let pages = u8::try_from(self.pages).unwrap_or(u8::MAX);
        let number = u8::try_from(self.number).unwrap_or(u8::MAX);
        Answer { number, value: i64::from(self.value), writes: Writes { rows, pages } }
    }
}

/// Each call: where the answer goes, the memory of which C makes a `chart_store`, and the arguments; and a
/// function that lends it a store.
macro_rules! calls {
    ($($name:ident: $function:ident($($argument:ident: $kind:ty),*);)*) => {
        extern "C" {
            $(fn $function(
                answer: *mut Parts, ram: *mut Ram,
                log: *mut u8, log_length: u64,
                charts: *mut u8, charts_length: u64,
                $($argument: $kind),*
            );)*
        }
        $(pub(crate) fn $name(store: &mut Proved, $($argument: $kind),*) -> Answer {
            let mut parts = Parts::default();
            let Proved { ram, log, charts } = store;
            unsafe {
                $function(
                    &mut parts, ram.as_mut(),
                    log.as_mut_ptr(), log.len() as u64,
                    charts.as_mut_ptr(), charts.len() as u64,
                    $($argument),*
                )
            };
            parts.answer()
        })*
    };
}

calls! {
    format_by: header_format(cells: *const i32, cells_length: u64);
    open_by: header_open(limited: c_int, writes: u32);
    begin: header_begin();
    change: header_change(visit: u16, cell: u8, amount: i16);
    hand_over: header_hand_over(giver: u16, receiver: u16, cell: u8);
    hand_over_all: header_hand_over_all(giver: u16, receiver: u16);
    commit: header_commit(visit: u16);
    abort: header_abort(visit: u16);
    force: header_force();
    flush: header_flush(page: u8);
    read: header_read(cell: u8);
}

pub(crate) fn format(store: &mut Proved, cells: &[i32]) -> Answer {
    format_by(store, cells.as_ptr(), cells.len() as u64)
}

/// With no fuse C hands over the header's constant for it.
pub(crate) fn open(store: &mut Proved, fuse: Option<u32>) -> Answer {
    open_by(store, c_int::from(fuse.is_some()), fuse.unwrap_or(0))
}

#[repr(C)]
struct Named {
    name: *const c_char,
    number: i64,
}

extern "C" {
    fn header_redo_page(
        answer: *mut Parts,
        log: *const u8,
        log_length: u64,
        page: *mut u8,
        page_length: u64,
        number: u8,
    );
    fn header_parts(answer: *mut Parts, packed: u64);
    fn header_text(number: c_int) -> *const c_char;
    fn header_service_hint(number: c_int) -> *const c_char;
    fn header_constants() -> *const Named;
}

/// The forward part of an opening for one page alone: no call of a store.
pub(crate) fn redo_page(log: &[u8], page: &mut [u8], number: u8) -> Answer {
    let mut parts = Parts::default();
    let (log_length, page_length) = (log.len() as u64, page.len() as u64);
    unsafe {
        header_redo_page(&mut parts, log.as_ptr(), log_length, page.as_mut_ptr(), page_length, number)
    };
    parts.answer()
}

/// What the header's functions take of any number.
pub fn parts_of(packed: u64) -> Parts {
    let mut parts = Parts::default();
    unsafe { header_parts(&mut parts, packed) };
    parts
}

/// What `chart_text` says of a number.
pub fn text(number: i32) -> &'static str {
    string(unsafe { header_text(number) })
}

/// What `chart_service_hint` says of a number.
pub fn service_hint(number: i32) -> &'static str {
    string(unsafe { header_service_hint(number) })
}

/// The constants of the header, and size, offsets and widths of `chart_ram`, as C has them.
pub fn constants() -> Vec<(&'static str, i64)> {
    let mut found = Vec::new();
    let mut at = unsafe { header_constants() };
    while let Some(named) = unsafe { at.as_ref() }.filter(|named| !named.name.is_null()) {
        found.push((string(named.name), named.number));
        at = at.wrapping_add(1);
    }
    found
}

/// A string of the header is there as long as the program.
fn string(text: *const c_char) -> &'static str {
    unsafe { CStr::from_ptr(text) }.to_str().expect("the header's strings are UTF-8")
}
