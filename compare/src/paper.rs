//! Document 01 rendered as literally as possible: the truth of the comparison.
//!
//! The parts stand in the order of document 01: the store, its rows, the row rules, power, the calls
//! with their refusals. Each part quotes the words that it renders. Between two calls nothing is kept
//! but what 01 keeps: stored log, stored charts, copy, tail, fuse, and whether the store is open.
//! Active visits, holders, open changes, reserve, free rows and scopes are worked out from the list
//! of rows anew in every call; there is no scope table, and the one counter is that of the stored
//! writes of the call that runs, which its answer takes with it (document 02, "02", request L1). Where
//! a part renders words of 02 it names the request.

use crate::store::{Answer, Lengths, Scope, Writes, CELLS, RIGHT};
use std::collections::BTreeSet;

// ---------------------------------------------------------------------------------- the store

const PAGES: usize = 32;
const PAGE_BYTES: usize = 32;
const CELLS_PER_PAGE: usize = 7;
const LOG_ROWS: usize = 4_096;
const ROW_BYTES: usize = 16;
const TAIL_ROWS: usize = 64;

/// "Cell c (0 to 223) is place c mod 7 of page c / 7, rounded down."
fn page_of(cell: u8) -> usize {
    cell as usize / CELLS_PER_PAGE
}

/// "Bytes 0-1: page mark ... Bytes 2-3: zero. Then 7 cells, each a signed 32-bit number of grams."
fn place_of(cell: u8) -> usize {
    page_of(cell) * PAGE_BYTES + 4 + 4 * (cell as usize % CELLS_PER_PAGE)
}

/// "Multi-byte numbers are little-endian."
pub fn get_cell(charts: &[u8], cell: u8) -> i32 {
    let at = place_of(cell);
    i32::from_le_bytes(charts[at..at + 4].try_into().unwrap())
}

pub fn set_cell(charts: &mut [u8], cell: u8, grams: i32) {
    let at = place_of(cell);
    charts[at..at + 4].copy_from_slice(&grams.to_le_bytes());
}

/// "Page mark, the row number of the last change or undo applied, 0 for none."
pub fn get_mark(charts: &[u8], page: usize) -> u16 {
    let at = page * PAGE_BYTES;
    u16::from_le_bytes(charts[at..at + 2].try_into().unwrap())
}

pub fn set_mark(charts: &mut [u8], page: usize, row: u16) {
    let at = page * PAGE_BYTES;
    charts[at..at + 2].copy_from_slice(&row.to_le_bytes());
}

/// "A change is added, an undo subtracted, and the mark set." Other rows leave the charts alone.
pub fn apply(charts: &mut [u8], row: &Row) {
    if !row.is_change_or_undo() {
        return;
    }
    let before = get_cell(charts, row.cell);
    let amount = i32::from(row.change);
    let after = match row.kind {
        CHANGE => before + amount,
        _ => before - amount,
    };
    set_cell(charts, row.cell, after);
    set_mark(charts, page_of(row.cell), row.number);
}

// ------------------------------------------------------------------------------------ the rows

/// "kind: 1 begin, 2 change, 3 hand-over, 4 undo, 5 commit, 6 abort"
pub const BEGIN: u8 = 1;
pub const CHANGE: u8 = 2;
pub const HAND_OVER: u8 = 3;
pub const UNDO: u8 = 4;
pub const COMMIT: u8 = 5;
pub const ABORT: u8 = 6;
/// 02, L2: "A row of kind 7 with giver and receiver, cell zero, means the hand-over of every cell of
/// which the giver holds a change."
pub const HAND_OVER_ALL: u8 = 7;

/// "Every byte not named for a kind is zero. A constant table says, for each kind and byte, whether
/// it may be other than zero." A line for each kind from 0 to 7; a dot is a byte that must be zero.
/// K kind, V visit, R receiver, C cell, N the row's own number, U row undone, A amount of change.
/// Kind 7 names no cell: "cell zero". 02, L7: "Visits become 16-bit: byte 1 stays the low byte and byte 10
/// holds the high one, byte 2 and byte 11 likewise for the receiver."
const NAMED: [&[u8; ROW_BYTES]; 8] = [
    b"................",
    b"KV..NN....V.....",
    b"KV.CNN..AAV.....",
    b"KVRCNN....VR....",
    b"KV.CNNUUAAV.....",
    b"KV..NN....V.....",
    b"KV..NN....V.....",
    b"KVR.NN....VR....",
];

#[derive(Clone, Copy, PartialEq, Eq, Debug, Default)]
pub struct Row {
    pub kind: u8,
    /// "visit (kind 3: giver; kind 4: holder)"; kind 7: giver. 02, L7: "The limit is 65,535 visits."
    pub visit: u16,
    /// "receiver (kind 3)"; kind 7 too
    pub receiver: u16,
    /// "cell, 0 to 223 (kinds 2, 3, 4)"
    pub cell: u8,
    /// "the row's own number"
    pub number: u16,
    /// "row undone (kind 4)"
    pub undone: u16,
    /// "signed 16-bit change; kind 4: the change as first logged, not negated"
    pub change: i16,
}

impl Row {
    pub fn read(bytes: &[u8]) -> Row {
        Row {
            kind: bytes[0],
            visit: u16::from_le_bytes([bytes[1], bytes[10]]),
            receiver: u16::from_le_bytes([bytes[2], bytes[11]]),
            cell: bytes[3],
            number: u16::from_le_bytes([bytes[4], bytes[5]]),
            undone: u16::from_le_bytes([bytes[6], bytes[7]]),
            change: i16::from_le_bytes([bytes[8], bytes[9]]),
        }
    }

    pub fn bytes(&self) -> [u8; ROW_BYTES] {
        let mut bytes = [0; ROW_BYTES];
        bytes[0] = self.kind;
        [bytes[1], bytes[10]] = self.visit.to_le_bytes();
        [bytes[2], bytes[11]] = self.receiver.to_le_bytes();
        bytes[3] = self.cell;
        bytes[4..6].copy_from_slice(&self.number.to_le_bytes());
        bytes[6..8].copy_from_slice(&self.undone.to_le_bytes());
        bytes[8..10].copy_from_slice(&self.change.to_le_bytes());
        bytes
    }

    pub fn is_change_or_undo(&self) -> bool {
        self.kind == CHANGE || self.kind == UNDO
    }

    /// Whether the row names a giver and a receiver.
    pub fn is_hand_over(&self) -> bool {
        self.kind == HAND_OVER || self.kind == HAND_OVER_ALL
    }
}

/// Whether byte `at` may be other than zero in a row of this kind.
pub fn is_named(kind: u8, at: usize) -> bool {
    NAMED[usize::from(kind)][at] != b'.'
}

/// What 02, L8 counts as wrong bytes of a row: "unknown kind, a byte that must be zero, a wrong own number".
pub fn is_known_kind(bytes: &[u8]) -> bool {
    (BEGIN..=HAND_OVER_ALL).contains(&bytes[0])
}

pub fn sets_unnamed_byte(bytes: &[u8]) -> bool {
    bytes.iter().enumerate().any(|(at, byte)| *byte != 0 && !is_named(bytes[0], at))
}

pub fn has_number(bytes: &[u8], number: usize) -> bool {
    usize::from(Row::read(bytes).number) == number
}

fn has_wrong_bytes(bytes: &[u8], number: usize) -> bool {
    !is_known_kind(bytes) || sets_unnamed_byte(bytes) || !has_number(bytes, number)
}

/// "4,096 rows of 16, numbered from 1. The log ends before the first row whose kind is 0."
pub fn rows_of(log: &[u8]) -> Vec<Row> {
    log.chunks_exact(ROW_BYTES).take_while(|bytes| bytes[0] != 0).map(Row::read).collect()
}

// ----------------------------------------------------------------------------------- row rules

/// A change row, with what the rows say of it.
#[derive(Clone, PartialEq, Eq, Debug)]
pub struct Change {
    pub row: u16,
    pub maker: u16,
    pub cell: u8,
    pub amount: i16,
    pub holder: u16,
    pub undone: bool,
}

/// A hand-over of one cell: a row of kind 3 is one, a row of kind 7 as many as the giver holds cells.
#[derive(Clone, Copy, PartialEq, Eq, Debug)]
pub struct SingleHandOver {
    pub row: u16,
    pub giver: u16,
    pub receiver: u16,
    pub cell: u8,
}

/// A list of rows, with what the row rules define for it.
#[derive(Clone, PartialEq, Eq, Debug, Default)]
pub struct Ledger {
    pub rows: Vec<Row>,
    /// The active visits, ascending.
    pub active: Vec<u16>,
    /// All changes of the list, ascending by row.
    pub changes: Vec<Change>,
    /// The single hand-overs that the rows count as, ascending by row. 02, L2: "Row rules, scopes and
    /// the sum over last holders then count kind 7 as all those single hand-overs."
    pub hand_overs: Vec<SingleHandOver>,
}

impl Ledger {
    pub fn of(rows: &[Row]) -> Ledger {
        let mut ledger = Ledger::default();
        rows.iter().for_each(|row| ledger.add(*row));
        ledger
    }

    /// The list with one more row.
    pub fn add(&mut self, row: Row) {
        self.rows.push(row);
        match row.kind {
            // "A visit is active from its begin until its commit or abort."
            BEGIN => self.active.push(row.visit),
            COMMIT | ABORT => self.active.retain(|visit| *visit != row.visit),
            // "The holder of a change is its maker."
            CHANGE => self.changes.push(Change {
                row: row.number,
                maker: row.visit,
                cell: row.cell,
                amount: row.change,
                holder: row.visit,
                undone: false,
            }),
            HAND_OVER => self.hand_over(&row, &[row.cell]),
            // 02, L2: "the hand-over of every cell of which the giver holds a change".
            HAND_OVER_ALL => self.hand_over(&row, &self.cells_held(row.visit)),
            // A change is no longer open once an undo row names it.
            UNDO => {
                if let Ok(at) = self.changes.binary_search_by_key(&row.undone, |change| change.row) {
                    self.changes[at].undone = true;
                }
            }
            _ => {}
        }
    }

    /// "A hand-over makes the receiver the holder of all changes of that cell that the giver holds,
    /// wherever they stand in the log." The row hands over each of these cells.
    fn hand_over(&mut self, row: &Row, cells: &[u8]) {
        for change in &mut self.changes {
            if change.holder == row.visit && cells.contains(&change.cell) {
                change.holder = row.receiver;
            }
        }
        self.hand_overs.extend(cells.iter().map(|cell| SingleHandOver {
            row: row.number,
            giver: row.visit,
            receiver: row.receiver,
            cell: *cell,
        }));
    }

    pub fn is_active(&self, visit: u16) -> bool {
        self.active.contains(&visit)
    }

    /// "A change is open if its holder is active and no undo row names it."
    pub fn is_open(&self, change: &Change) -> bool {
        self.is_active(change.holder) && !change.undone
    }

    /// The open changes, ascending by row.
    pub fn open_changes(&self) -> impl DoubleEndedIterator<Item = &Change> {
        self.changes.iter().filter(|change| self.is_open(change))
    }

    /// "Reserve = active visits + open changes."
    pub fn reserve(&self) -> usize {
        self.active.len() + self.open_changes().count()
    }

    /// "Free = 4,096 less the rows of log and tail."
    pub fn free(&self) -> usize {
        LOG_ROWS - self.rows.len()
    }

    pub fn begin_rows(&self) -> usize {
        self.rows.iter().filter(|row| row.kind == BEGIN).count()
    }

    /// Whether an undo row bears the visit.
    pub fn bears_undo(&self, visit: u16) -> bool {
        self.rows.iter().any(|row| row.kind == UNDO && row.visit == visit)
    }

    /// Whether the visit holds a change of the cell.
    pub fn holds(&self, visit: u16, cell: u8) -> bool {
        self.changes.iter().any(|change| change.holder == visit && change.cell == cell)
    }

    /// "Every cell of which the giver holds a change", ascending.
    pub fn cells_held(&self, visit: u16) -> Vec<u8> {
        let held = self.changes.iter().filter(|change| change.holder == visit);
        let cells: BTreeSet<u8> = held.map(|change| change.cell).collect();
        cells.into_iter().collect()
    }

    /// "The giver holds something": a change, of whichever cell.
    pub fn holds_something(&self, visit: u16) -> bool {
        self.changes.iter().any(|change| change.holder == visit)
    }

    /// "The highest open change of that holder."
    pub fn highest_open(&self, holder: u16) -> Option<&Change> {
        self.open_changes().rev().find(|change| change.holder == holder)
    }

    /// Whether a change of this cell by this visit, put after the list, would start a scope.
    pub fn starts_scope(&self, visit: u16, cell: u8) -> bool {
        self.starts_scope_at(self.rows.len() as u16 + 1, visit, cell)
    }

    /// "A change of cell c by visit v starts a new scope, unless v changed c before and has not handed
    /// c over since." The change stands, or would stand, in this row.
    fn starts_scope_at(&self, row: u16, visit: u16, cell: u8) -> bool {
        let before = self.changes.partition_point(|change| change.row < row);
        let mut changes = self.changes[..before].iter().rev();
        let Some(last) = changes.find(|change| change.maker == visit && change.cell == cell) else {
            return true;
        };
        self.hands_over_between(last.row, row, visit, cell)
    }

    /// Whether the visit hands the cell over in a row between these two.
    fn hands_over_between(&self, after: u16, before: u16, visit: u16, cell: u8) -> bool {
        let first = self.hand_overs.partition_point(|single| single.row <= after);
        let end = self.hand_overs.partition_point(|single| single.row < before);
        let mut between = self.hand_overs[first..end].iter();
        between.any(|single| single.giver == visit && single.cell == cell)
    }

    /// "A scope is in use while its changes' holder is active." One scope for each change that
    /// starts one.
    pub fn scopes_in_use(&self) -> usize {
        self.changes
            .iter()
            .filter(|change| self.is_active(change.holder) && self.started(change))
            .count()
    }

    fn started(&self, change: &Change) -> bool {
        self.starts_scope_at(change.row, change.maker, change.cell)
    }

    /// The scopes in use, ascending by first row.
    pub fn scopes(&self) -> Vec<Scope> {
        let mut scopes: Vec<Scope> = Vec::new();
        for change in &self.changes {
            if !self.is_active(change.holder) {
                continue;
            }
            if self.started(change) {
                scopes.push(Scope {
                    maker: change.maker,
                    holder: change.holder,
                    cell: change.cell,
                    first: change.row,
                    handed: self.handed_over_after(change),
                    ..Scope::default()
                });
            }
            // A change that starts no scope belongs to the one that its maker last started there.
            let scope = scopes
                .iter_mut()
                .rev()
                .find(|scope| scope.maker == change.maker && scope.cell == change.cell);
            if let (Some(scope), false) = (scope, change.undone) {
                scope.last = change.row;
                scope.count += 1;
            }
        }
        scopes
    }

    /// The first hand-over of a change is by its maker, who is its first holder.
    fn handed_over_after(&self, change: &Change) -> bool {
        self.hands_over_between(change.row, u16::MAX, change.maker, change.cell)
    }
}

/// What a row with right bytes needs of visits, cells, holders and undo rows: 02, L8, "a visit, cell, holder
/// or undo rule". Of the table of bytes that are the ranges: "visit, 1 to 255", with the limit of 02, L7,
/// "receiver", "cell, 0 to 223 (kinds 2, 3, 4)".
fn keeps_rules(before: &Ledger, row: &Row) -> bool {
    let names_cell = matches!(row.kind, CHANGE | HAND_OVER | UNDO);
    if row.visit == 0
        || row.is_hand_over() && row.receiver == 0
        || names_cell && usize::from(row.cell) >= CELLS
    {
        return false;
    }
    // "two different active visits, neither with an undo row"
    let two_visits = || {
        row.visit != row.receiver
            && before.is_active(row.visit)
            && before.is_active(row.receiver)
            && !before.bears_undo(row.visit)
            && !before.bears_undo(row.receiver)
    };
    match row.kind {
        // "begin: visit = begin rows so far + 1"
        BEGIN => usize::from(row.visit) == before.begin_rows() + 1,
        // "change: the visit is active and no undo row bears it"
        CHANGE => before.is_active(row.visit) && !before.bears_undo(row.visit),
        // "hand-over: two different active visits, neither with an undo row; the giver holds a change of
        // the cell"
        HAND_OVER => two_visits() && before.holds(row.visit, row.cell),
        // 02, L2: "It is accepted exactly where the two visits would be for a single cell, the giver
        // holds something .."
        HAND_OVER_ALL => two_visits() && before.holds_something(row.visit),
        // "undo: the named row is the highest open change of that holder; cell and change equal that
        // row's"
        UNDO => match before.highest_open(row.visit) {
            Some(change) => {
                change.row == row.undone && change.cell == row.cell && change.amount == row.change
            }
            None => false,
        },
        // "commit: the visit is active and has no undo row"
        COMMIT => before.is_active(row.visit) && !before.bears_undo(row.visit),
        // "abort: the visit is active and holds no open change"
        ABORT => before.is_active(row.visit) && before.highest_open(row.visit).is_none(),
        _ => true,
    }
}

/// What a row needs besides: 02, L8, "sixteen visits, the scopes or the free rows".
// The sums stand as in 01.
#[allow(clippy::int_plus_one)]
fn keeps_limits(before: &Ledger, row: &Row) -> bool {
    match row.kind {
        // "begin: .. fewer than 16 are active; free is at least reserve + 2"
        BEGIN => before.active.len() < 16 && before.free() >= before.reserve() + 2,
        // "change: .. if it starts a scope, fewer than 64 are in use; free is at least reserve + 2"
        CHANGE => {
            (!before.starts_scope(row.visit, row.cell) || before.scopes_in_use() < 64)
                && before.free() >= before.reserve() + 2
        }
        // "hand-over: .. free is at least reserve + 1"; 02, L2: ".. and one row is free beyond the reserve"
        HAND_OVER | HAND_OVER_ALL => before.free() >= before.reserve() + 1,
        _ => true,
    }
}

/// The numbers of the reasons for which a row, of kind 0 or not, is not allowed after the rows before it,
/// each judged by itself. 02, L8: "Checks: within a row first 3, then 16 .., then 17 ..". "A row is allowed
/// after the rows before it" where there is none.
pub fn reasons(before: &Ledger, bytes: &[u8]) -> Vec<u8> {
    let row = Row::read(bytes);
    let checks = [
        (3, has_wrong_bytes(bytes, before.rows.len() + 1)),
        (16, !keeps_rules(before, &row)),
        (17, !keeps_limits(before, &row)),
    ];
    checks.iter().filter(|(_, refuses)| *refuses).map(|(number, _)| *number).collect()
}

pub fn is_allowed(before: &Ledger, bytes: &[u8]) -> bool {
    before.rows.len() < LOG_ROWS && reasons(before, bytes).is_empty()
}

/// The first row of a log that is not allowed, or has a byte after the end that is not zero.
pub struct BadRow {
    pub row: usize,
    /// The reasons, in the order of their checks.
    pub reasons: Vec<u8>,
}

/// "3: a row not allowed, or a byte after the end not zero; gives the first such row", with the numbers of
/// 02, L8: 3 for "bytes after the end". The rows of a log that has neither, or that row.
pub fn check_log(log: &[u8]) -> Result<Ledger, BadRow> {
    let mut ledger = Ledger::default();
    for bytes in log.chunks_exact(ROW_BYTES).take_while(|bytes| bytes[0] != 0) {
        let reasons = reasons(&ledger, bytes);
        if !reasons.is_empty() {
            return Err(BadRow { row: ledger.rows.len() + 1, reasons });
        }
        ledger.add(Row::read(bytes));
    }
    let end = ledger.rows.len();
    let mut after = log.chunks_exact(ROW_BYTES).skip(end);
    match after.position(|bytes| bytes != [0; ROW_BYTES]) {
        Some(blank_rows) => Err(BadRow { row: end + blank_rows + 1, reasons: vec![3] }),
        None => Ok(ledger),
    }
}

/// "4: mark neither 0 nor a change or undo row of that page, bytes 2-3 not zero, or a cell beyond
/// ±200,000,000; gives the first such page".
pub fn check_pages(charts: &[u8], rows: &[Row]) -> Result<(), usize> {
    for page in 0..PAGES {
        let mark = get_mark(charts, page);
        let mark_is_right = mark == 0
            || rows
                .iter()
                .any(|row| row.number == mark && row.is_change_or_undo() && page_of(row.cell) == page);
        let at = page * PAGE_BYTES;
        let zeros_are_right = charts[at + 2] == 0 && charts[at + 3] == 0;
        let cells_are_right = (0..CELLS_PER_PAGE).all(|place| {
            let cell = (page * CELLS_PER_PAGE + place) as u8;
            (-200_000_000..=200_000_000).contains(&get_cell(charts, cell))
        });
        if !(mark_is_right && zeros_are_right && cells_are_right) {
            return Err(page);
        }
    }
    Ok(())
}

// ------------------------------------------------------------------------------- a page alone

/// 02, L3: "Lent the log and one page's 32 bytes alone, with its number, it leaves that page as the
/// opening has it before going backward." It is lent bytes that no opening has checked, so a row has the
/// number of its place, and sums wrap.
pub fn redo_page(log: &[u8], page: &mut [u8], number: u8) -> Outcome {
    // "every call | 1: a lent buffer has another length", "flush | 14: page above 31"
    refuse_if(log.len() != RIGHT.log || page.len() != PAGE_BYTES, 1)?;
    refuse_if(number as usize >= PAGES, 14)?;
    // "Each change or undo row whose number exceeds its page's mark is applied."
    for (row, place) in rows_of(log).iter().zip(1..) {
        let is_on_page = row.is_change_or_undo() && page_of(row.cell) == number as usize;
        if is_on_page && place > get_mark(page, 0) {
            // "A change is added, an undo subtracted, and the mark set." Alone a page stands where
            // page 0 does.
            let cell = row.cell % CELLS_PER_PAGE as u8;
            let before = get_cell(page, cell);
            let amount = i32::from(row.change);
            let after = match row.kind {
                CHANGE => before.wrapping_add(amount),
                _ => before.wrapping_sub(amount),
            };
            set_cell(page, cell, after);
            set_mark(page, 0, place);
        }
    }
    Ok(0)
}

// --------------------------------------------------------------------------------------- power

/// A refusal of the table: its number, and the value where one is named.
#[derive(PartialEq, Eq)]
pub struct Refusal {
    number: u8,
    value: i64,
}

impl Refusal {
    /// The answer of a refusal that landed no write.
    pub fn answer(&self) -> Answer {
        Answer { number: self.number, value: self.value, writes: Writes::NONE }
    }
}

/// "Values not named are 0."
fn refuse_if(condition: bool, number: u8) -> Result<(), Refusal> {
    if condition {
        return Err(Refusal { number, value: 0 });
    }
    Ok(())
}

/// The value of a call that is done, or its refusal.
type Outcome = Result<i64, Refusal>;

/// "Stored charts", "stored log" and "in RAM: a copy of the charts, a tail of at most 64 rows not yet
/// stored", with the fuse of the opening and whether the store is open.
#[derive(Clone)]
pub struct Paper {
    pub log: Vec<u8>,
    pub charts: Vec<u8>,
    pub copy: Vec<u8>,
    pub tail: Vec<Row>,
    /// "None, or the number of stored writes that still land (32 bits)."
    pub fuse: Option<u32>,
    pub open: bool,
    /// The lengths of the buffers that the host lends to the next call.
    pub lent: Lengths,
    /// The stored writes that the call which runs has landed; none between two calls.
    landed: Writes,
}

impl Paper {
    pub fn new() -> Paper {
        Paper {
            log: vec![0; RIGHT.log],
            charts: vec![0; RIGHT.charts],
            copy: vec![0; RIGHT.copy],
            tail: Vec::new(),
            fuse: None,
            open: false,
            lent: RIGHT,
            landed: Writes::NONE,
        }
    }

    /// The answer of a call: number 0 and its value, or the refusal; and its stored writes.
    /// 02, L1: "Every result, refusals included, carries the stored writes that this call landed, rows
    /// and pages as two counts."
    pub fn answer(&mut self, outcome: Outcome) -> Answer {
        let (number, value) = match outcome {
            Ok(value) => (0, value),
            Err(Refusal { number, value }) => (number, value),
        };
        Answer { number, value, writes: std::mem::take(&mut self.landed) }
    }

    /// "Copy and tail become zero and empty, every scope entry becomes unused (all fields zero), and
    /// the store is closed."
    fn lose_ram(&mut self) {
        self.copy.fill(0);
        self.tail.clear();
        self.fuse = None;
        self.open = false;
    }

    /// "The write after the last one doesn't land; the call answers 5, .."
    fn spend_write(&mut self) -> Result<(), Refusal> {
        match self.fuse {
            None => {}
            Some(0) => {
                self.lose_ram();
                return Err(Refusal { number: 5, value: 0 });
            }
            Some(left) => self.fuse = Some(left - 1),
        }
        Ok(())
    }

    // ----------------------------------------------------------------------- inside the calls

    /// "every call | 1: a lent buffer has another length"
    fn check_lengths(&self) -> Result<(), Refusal> {
        refuse_if(self.lent != RIGHT, 1)
    }

    /// "every call but format and open | 5: store closed"
    fn check_open(&self) -> Result<(), Refusal> {
        refuse_if(!self.open, 5)
    }

    /// The number of rows of the stored log.
    pub fn stored_rows(&self) -> usize {
        let rows = self.log.chunks_exact(ROW_BYTES);
        rows.take_while(|bytes| bytes[0] != 0).count()
    }

    /// The rows of log and tail.
    pub fn rows(&self) -> Vec<Row> {
        let mut rows = rows_of(&self.log);
        rows.extend(&self.tail);
        rows
    }

    /// The rows of log and tail, with what the row rules define for them.
    pub fn ledger(&self) -> Ledger {
        Ledger::of(&self.rows())
    }

    /// "Append (inside): if the tail holds 64 rows it is forced first. A change or undo is applied
    /// to the copy when appended." Gives the row its number and returns it.
    fn append(&mut self, row: Row) -> Outcome {
        if self.tail.len() == TAIL_ROWS {
            self.force_tail()?;
        }
        let number = (self.stored_rows() + self.tail.len() + 1) as u16;
        let row = Row { number, ..row };
        self.tail.push(row);
        apply(&mut self.copy, &row);
        Ok(i64::from(number))
    }

    /// "Force stores the tail's rows in order, one write each."
    fn force_tail(&mut self) -> Result<(), Refusal> {
        self.force_up_to(u16::MAX)
    }

    /// Stores the tail's rows up to this row number.
    fn force_up_to(&mut self, number: u16) -> Result<(), Refusal> {
        while self.tail.first().is_some_and(|row| row.number <= number) {
            self.spend_write()?;
            let row = self.tail.remove(0);
            let at = self.stored_rows() * ROW_BYTES;
            self.log[at..at + ROW_BYTES].copy_from_slice(&row.bytes());
            self.landed.rows += 1;
        }
        Ok(())
    }

    /// The undo row for a change: "the change as first logged, not negated".
    fn append_undo(&mut self, change: &Change) -> Outcome {
        self.append(Row {
            kind: UNDO,
            visit: change.holder,
            cell: change.cell,
            undone: change.row,
            change: change.amount,
            ..Row::default()
        })
    }

    fn append_abort(&mut self, visit: u16) -> Outcome {
        self.append(Row { kind: ABORT, visit, ..Row::default() })
    }

    // ------------------------------------------------------------------------------- the calls

    /// "Format takes 224 cells, marks 0, blank log. Power is held during it. Copy, tail and scopes
    /// end as after a power failure, and the store is closed."
    /// "format | 2: a cell beyond ±1,000,000; gives the first such cell"
    /// 02, L1: "A format's are zero." What it writes are no rows and no pages that count.
    pub fn format(&mut self, cells: &[i32]) -> Outcome {
        self.check_lengths()?;
        refuse_if(cells.len() != CELLS, 1)?;
        let too_far = |grams: &i32| !(-1_000_000..=1_000_000).contains(grams);
        if let Some(cell) = cells.iter().position(too_far) {
            return Err(Refusal { number: 2, value: cell as i64 });
        }
        self.log.fill(0);
        self.charts.fill(0);
        for (cell, grams) in cells.iter().enumerate() {
            set_cell(&mut self.charts, cell as u8, *grams);
        }
        self.lose_ram();
        Ok(0)
    }

    /// What an opening has before it goes backward: the rows of the log, and the copy.
    /// "It checks log, then pages, and loads the copy. Forward: each change or undo row whose number
    /// exceeds its page's mark is applied."
    pub fn forward(&self) -> Result<(Ledger, Vec<u8>), Refusal> {
        // "Within a row first 3, then 16 .., then 17 .."
        let ledger = check_log(&self.log)
            .map_err(|bad| Refusal { number: bad.reasons[0], value: bad.row as i64 })?;
        check_pages(&self.charts, &ledger.rows)
            .map_err(|page| Refusal { number: 4, value: page as i64 })?;
        let mut copy = self.charts.clone();
        for row in &ledger.rows {
            if row.is_change_or_undo() && row.number > get_mark(&copy, page_of(row.cell)) {
                apply(&mut copy, row);
            }
        }
        Ok((ledger, copy))
    }

    /// "Open may come in any state; what was in RAM is lost."
    /// "After 3 or 4 log and charts are unchanged, while copy, tail and scopes end as after a power
    /// failure and the store is closed." 02, L8: "16 and 17 leave everything as 3 does."
    pub fn open(&mut self, fuse: Option<u32>) -> Outcome {
        self.check_lengths()?;
        self.lose_ram();
        let (ledger, copy) = self.forward()?;
        self.copy = copy;
        self.open = true;
        self.fuse = fuse;

        // "Backward: open changes fall in descending row number over all visits, each by an undo
        // row."
        let mut rows_written = 0;
        for change in ledger.open_changes().rev() {
            self.append_undo(change)?;
            rows_written += 1;
        }
        // "Then an abort row for each active visit, highest number first."
        for visit in ledger.active.iter().rev() {
            self.append_abort(*visit)?;
            rows_written += 1;
        }
        // "Then force. It returns the rows it wrote."
        self.force_tail()?;
        Ok(rows_written)
    }

    /// "Begin returns the visit." 02, L4: "Begin shall force the log before it returns."
    /// "begin | 6: .. visits used; 7: 16 active; 8: free below need", with the limit of 02, L7
    pub fn begin(&mut self) -> Outcome {
        self.check_lengths()?;
        self.check_open()?;
        let ledger = self.ledger();
        refuse_if(ledger.begin_rows() == 65_535, 6)?;
        refuse_if(ledger.active.len() == 16, 7)?;
        refuse_if(ledger.free() < ledger.reserve() + 2, 8)?;
        let visit = ledger.begin_rows() as u16 + 1;
        self.append(Row { kind: BEGIN, visit, ..Row::default() })?;
        self.force_tail()?;
        Ok(i64::from(visit))
    }

    /// "Change and hand over [return] their row number."
    /// "change | 9: visit not active; 10: cell above 223; 11: scopes used up; 8"
    pub fn change(&mut self, visit: u16, cell: u8, amount: i16) -> Outcome {
        self.check_lengths()?;
        self.check_open()?;
        let ledger = self.ledger();
        refuse_if(!ledger.is_active(visit), 9)?;
        refuse_if(cell > 223, 10)?;
        let scopes_used_up = ledger.starts_scope(visit, cell) && ledger.scopes_in_use() >= 64;
        refuse_if(scopes_used_up, 11)?;
        refuse_if(ledger.free() < ledger.reserve() + 2, 8)?;
        self.append(Row { kind: CHANGE, visit, cell, change: amount, ..Row::default() })
    }

    /// "hand over | 9: giver, then receiver, not active; 12: same visit; 10; 13: giver holds none;
    /// 8"
    pub fn hand_over(&mut self, giver: u16, receiver: u16, cell: u8) -> Outcome {
        self.check_lengths()?;
        self.check_open()?;
        let ledger = self.ledger();
        refuse_if(!ledger.is_active(giver), 9)?;
        refuse_if(!ledger.is_active(receiver), 9)?;
        refuse_if(giver == receiver, 12)?;
        refuse_if(cell > 223, 10)?;
        refuse_if(!ledger.holds(giver, cell), 13)?;
        refuse_if(ledger.free() < ledger.reserve() + 1, 8)?;
        self.append(Row { kind: HAND_OVER, visit: giver, receiver, cell, ..Row::default() })
    }

    /// 02, L2: "It returns its row number." "Checks: 9, 12, 13, 8." As at hand over, 9 is of the giver,
    /// then of the receiver; 13 is "the giver holds something" not being so.
    pub fn hand_over_all(&mut self, giver: u16, receiver: u16) -> Outcome {
        self.check_lengths()?;
        self.check_open()?;
        let ledger = self.ledger();
        refuse_if(!ledger.is_active(giver), 9)?;
        refuse_if(!ledger.is_active(receiver), 9)?;
        refuse_if(giver == receiver, 12)?;
        refuse_if(!ledger.holds_something(giver), 13)?;
        refuse_if(ledger.free() < ledger.reserve() + 1, 8)?;
        self.append(Row { kind: HAND_OVER_ALL, visit: giver, receiver, ..Row::default() })
    }

    /// "Commit appends its row, forces, returns the row number."
    /// "commit, abort | 9"
    pub fn commit(&mut self, visit: u16) -> Outcome {
        self.check_lengths()?;
        self.check_open()?;
        refuse_if(!self.ledger().is_active(visit), 9)?;
        let number = self.append(Row { kind: COMMIT, visit, ..Row::default() })?;
        self.force_tail()?;
        Ok(number)
    }

    /// "Abort undoes the visit's open changes, highest row first, appends the abort row, returns its
    /// number. It doesn't force."
    pub fn abort(&mut self, visit: u16) -> Outcome {
        self.check_lengths()?;
        self.check_open()?;
        let ledger = self.ledger();
        refuse_if(!ledger.is_active(visit), 9)?;
        for change in ledger.open_changes().rev() {
            if change.holder == visit {
                self.append_undo(change)?;
            }
        }
        self.append_abort(visit)
    }

    /// "Force stores the tail's rows in order, one write each."
    pub fn force(&mut self) -> Outcome {
        self.check_lengths()?;
        self.check_open()?;
        self.force_tail()?;
        Ok(0)
    }

    /// "Flush page forces the tail up to the page's mark, then writes the page, also if unchanged."
    /// "flush | 14: page above 31"
    pub fn flush_page(&mut self, page: u8) -> Outcome {
        self.check_lengths()?;
        self.check_open()?;
        refuse_if(page > 31, 14)?;
        let page = usize::from(page);
        self.force_up_to(get_mark(&self.copy, page))?;
        self.spend_write()?;
        let bytes = page * PAGE_BYTES..(page + 1) * PAGE_BYTES;
        self.charts[bytes.clone()].copy_from_slice(&self.copy[bytes]);
        self.landed.pages += 1;
        Ok(0)
    }

    /// "Read returns a cell of the copy."
    /// "read | 10"
    pub fn read(&mut self, cell: u8) -> Outcome {
        self.check_lengths()?;
        self.check_open()?;
        refuse_if(cell > 223, 10)?;
        Ok(i64::from(get_cell(&self.copy, cell)))
    }
}

impl Default for Paper {
    fn default() -> Paper {
        Paper::new()
    }
}
