//! Logs made row by row. Every row is tried against document 01's row rules; those allowed make the
//! log, whether or not any calls would have made it, so that undo rows of several visits stand in
//! turns and visits stay half undone. Rows that are refused are tried at the end of the log.

use super::pages_alone::order;
use super::sessions::{amount, formatted, fuse, habits, held_cell, holding_visit, next_call, Habits};
use crate::arena::{Arena, Outcome};
use crate::bench::{Bench, Failure};
use crate::paper::{self, is_allowed, Ledger, Row};
use crate::paper::{BEGIN, CHANGE, COMMIT, HAND_OVER, HAND_OVER_ALL, UNDO};
use crate::prng::Rng;
use crate::steps::Step;

/// How often a row of each kind is tried: begin, change, hand-over, undo, commit, abort, hand-over of a whole
/// visit.
type Taste = [usize; 7];

fn taste(rng: &mut Rng) -> Taste {
    let mut taste = [0; 7];
    for weight in &mut taste {
        *weight = rng.pick(&[1, 2, 4, 10, 30]);
    }
    taste[1] = taste[1].max(taste[0]).max(4);
    taste[4] = rng.pick(&[0, taste[4]]);
    taste
}

/// A row to try: often allowed, often nearly so.
fn candidate(rng: &mut Rng, taste: &Taste, habits: &Habits, ledger: &Ledger) -> [u8; 16] {
    let mut kind = rng.weighted(taste) as u8 + 1;
    let crowded = ledger.active.len() >= habits.visits && rng.chance(14, 15);
    if kind == BEGIN && crowded {
        kind = CHANGE;
    }
    if ledger.active.is_empty() {
        kind = BEGIN;
    }
    let mut some_visit = || match ledger.active.as_slice() {
        [] => 1,
        active => rng.pick(active),
    };
    let (visit, receiver) = (some_visit(), some_visit());
    let cell = rng.pick(&habits.cells);
    let number = ledger.rows.len() as u16 + 1;
    let plain = Row { kind, visit, number, ..Row::default() };
    let row = match kind {
        BEGIN => Row { visit: ledger.begin_rows() as u16 + 1, ..plain },
        CHANGE => Row { cell, change: amount(rng, habits.small), ..plain },
        HAND_OVER => {
            let cell = held_cell(rng, ledger, visit).unwrap_or(cell);
            Row { receiver, cell, ..plain }
        }
        HAND_OVER_ALL => whole_visit(rng, ledger, Row { receiver, ..plain }, cell),
        UNDO => undo(rng, ledger, plain),
        _ => plain,
    };
    let mut bytes = row.bytes();
    if rng.chance(1, 12) {
        spoil(rng, &mut bytes);
    }
    bytes
}

/// Mostly a row that hands all over that a visit holds, now and then one with a cell, of one visit to itself,
/// or of a visit that has ended or has not begun.
fn whole_visit(rng: &mut Rng, ledger: &Ledger, plain: Row, cell: u8) -> Row {
    let giver = holding_visit(rng, ledger).unwrap_or(plain.visit);
    let row = Row { visit: giver, ..plain };
    let inactive = rng.pick(&[1, ledger.begin_rows() as u16, ledger.begin_rows() as u16 + 1]);
    match rng.below(20) {
        0 => Row { cell, ..row },
        1 => Row { receiver: giver, ..row },
        2 => Row { visit: inactive, ..row },
        3 => Row { receiver: inactive, ..row },
        _ => row,
    }
}

/// Mostly the undo row of the visit's highest open change, now and then that of another change.
fn undo(rng: &mut Rng, ledger: &Ledger, plain: Row) -> Row {
    let highest = ledger.highest_open(plain.visit);
    let any = match ledger.changes.as_slice() {
        [] => None,
        changes => Some(&changes[rng.below(changes.len())]),
    };
    let change = if rng.chance(1, 10) { any } else { highest };
    let Some(change) = change else { return plain };
    Row {
        visit: rng.pick(&[plain.visit, plain.visit, change.holder]),
        cell: change.cell,
        undone: change.row,
        change: change.amount,
        ..plain
    }
}

/// Changes one byte of a row.
pub fn spoil(rng: &mut Rng, bytes: &mut [u8; 16]) {
    let at = rng.below(16);
    let bit = 1 << rng.below(8);
    bytes[at] = rng.pick(&[bytes[at].wrapping_add(1), bytes[at].wrapping_sub(1), bytes[at] ^ bit, 0]);
}

/// A log in the making.
#[derive(Default)]
struct Made {
    rows: Vec<[u8; 16]>,
    ledger: Ledger,
    /// Rows that were refused, each with the number of rows that it was tried after.
    refused: Vec<(usize, [u8; 16])>,
}

impl Made {
    /// Adds a row that has a visit alone.
    fn add(&mut self, kind: u8, visit: u16) {
        let row = Row { kind, visit, number: self.rows.len() as u16 + 1, ..Row::default() };
        self.rows.push(row.bytes());
        self.ledger.add(row);
    }
}

/// Adds allowed rows to the log until it has this length or nothing fits any more.
fn grow(rng: &mut Rng, made: &mut Made, taste: &Taste, habits: &Habits, length: usize) {
    let mut in_vain = 0;
    while made.rows.len() < length && in_vain < 60 {
        let bytes = candidate(rng, taste, habits, &made.ledger);
        if is_allowed(&made.ledger, &bytes) {
            in_vain = 0;
            made.rows.push(bytes);
            made.ledger.add(Row::read(&bytes));
        } else {
            in_vain += 1;
            if bytes[0] != 0 {
                made.refused.push((made.rows.len(), bytes));
            }
        }
    }
}

/// Stores some pages as a flush at an earlier moment would have left them.
fn store_pages(rng: &mut Rng, arena: &mut Arena, rows: &[[u8; 16]]) -> Outcome<()> {
    for page in 0..32 {
        if rng.chance(1, 2) {
            continue;
        }
        let mut charts = arena.paper.charts.clone();
        for bytes in &rows[..rng.below(rows.len() + 1)] {
            let row = Row::read(bytes);
            if usize::from(row.cell / 7) == page {
                paper::apply(&mut charts, &row);
            }
        }
        let bytes = charts[page * 32..(page + 1) * 32].to_vec();
        if bytes != arena.paper.charts[page * 32..(page + 1) * 32] {
            arena.step(Step::WriteCharts(page * 32, bytes))?;
        }
    }
    Ok(())
}

/// Opens the log, with cuts, and works on from there; then tries some of the refused rows.
fn open_and_try(
    bench: &mut Bench,
    rng: &mut Rng,
    made: &Made,
    habits: &Habits,
    tries: usize,
) -> Result<(), Failure> {
    bench.case(|arena| {
        arena.step(Step::Format(formatted(rng)))?;
        arena.step(Step::WriteLog(made.rows.clone()))?;
        store_pages(rng, arena, &made.rows)?;
        arena.step(Step::RedoPages(order(rng)))?;
        if rng.chance(1, 2) {
            arena.step(Step::Scramble(rng.draw()))?;
        }
        for _ in 0..rng.below(3) {
            arena.step(Step::Open(fuse(rng)))?;
        }
        arena.step(Step::Open(None))?;
        for _ in 0..rng.below(12) {
            let call = next_call(rng, habits, arena.ledger());
            arena.step(Step::Call(call))?;
        }
        arena.step(Step::Open(None))?;
        Ok(())
    })?;
    for _ in 0..tries.min(made.refused.len()) {
        let (length, bytes) = rng.pick(&made.refused);
        try_refused(bench, &made.rows[..length], bytes)?;
    }
    Ok(())
}

/// A row that is not allowed after these is refused, by one of the three numbers.
fn try_refused(bench: &mut Bench, before: &[[u8; 16]], row: [u8; 16]) -> Result<(), Failure> {
    let mut rows = before.to_vec();
    rows.push(row);
    bench.case(|arena| {
        arena.step(Step::WriteLog(rows))?;
        let answer = arena.step(Step::Open(None))?;
        if !matches!(answer.number, 3 | 16 | 17) || answer.value != before.len() as i64 + 1 {
            return arena.differs("the last row is refused");
        }
        Ok(())
    })?;
    Ok(())
}

/// A log of up to so many rows.
pub fn make(seed: u64, length: usize) -> Vec<[u8; 16]> {
    let rng = &mut Rng::new(seed);
    let habits = habits(rng);
    made(rng, Made::default(), &habits, length).rows
}

/// Up to so many rows more.
fn made(rng: &mut Rng, mut made: Made, habits: &Habits, length: usize) -> Made {
    let length = made.rows.len() + length;
    for _ in 0..3 {
        let taste = taste(rng);
        grow(rng, &mut made, &taste, habits, length);
    }
    made
}

/// Visits that have ended, so many that the numbers of the next ones have high bytes. At times the first one
/// has not ended: visit 257 has its low byte.
fn many_visits(rng: &mut Rng) -> Made {
    let mut made = Made::default();
    let first = rng.pick(&[1, 2]);
    for visit in 1..=rng.pick(&[254, 255, 256, 300]) {
        made.add(BEGIN, visit);
        if visit >= first {
            made.add(COMMIT, visit);
        }
    }
    made
}

pub fn play(bench: &mut Bench, seed: u64) -> Result<(), Failure> {
    let rng = &mut Rng::new(seed);
    let habits = habits(rng);
    let length = 1 + rng.below(160);
    let before = if rng.chance(1, 12) { many_visits(rng) } else { Made::default() };
    let made = made(rng, before, &habits, length);
    open_and_try(bench, rng, &made, &habits, 6)
}

/// The rows that a full log lacks room for, and that lack nothing else, unless an undo row bears a visit: a
/// begin, a change in the last scope, a hand-over of it and one of all that its holder holds.
fn lacking_room(ledger: &Ledger) -> Vec<[u8; 16]> {
    let number = ledger.rows.len() as u16 + 1;
    let begin = Row { kind: BEGIN, visit: ledger.begin_rows() as u16 + 1, number, ..Row::default() };
    let mut rows = vec![begin];
    if let Some(last) = ledger.open_changes().next_back() {
        let (visit, cell) = (last.holder, last.cell);
        rows.push(Row { kind: CHANGE, visit, cell, change: 1, ..begin });
        let other = ledger.active.iter().find(|other| **other != visit);
        if let Some(other) = other {
            rows.push(Row { kind: HAND_OVER, visit, receiver: *other, cell, ..begin });
            rows.push(Row { kind: HAND_OVER_ALL, visit, receiver: *other, ..begin });
        }
    }
    rows.iter().map(Row::bytes).filter(|bytes| !is_allowed(ledger, bytes)).collect()
}

/// Begin and change rows, some hand-over rows, then all three, until the reserve leaves no room. A cell that
/// was handed over takes another scope with its maker's next change, so that many hand-overs would use up
/// the scopes first.
fn fill(rng: &mut Rng, made: &mut Made, habits: &Habits) {
    let changes = rng.pick(&[1_500, 2_000]);
    grow(rng, made, &[4, 60, 0, 0, 0, 0, 0], habits, changes);
    let hand_overs = made.rows.len() + rng.below(40);
    grow(rng, made, &[0, 1, 60, 0, 0, 0, 6], habits, hand_overs);
    grow(rng, made, &[4, 60, 1, 0, 0, 0, 1], habits, 4_096);
}

/// A log that is full but for the reserve. Then some changes are undone and a visit commits, and what room
/// that makes is filled too. Then rows of all kinds.
pub fn play_full(bench: &mut Bench, seed: u64) -> Result<(), Failure> {
    let rng = &mut Rng::new(seed);
    let mut habits = Habits { visits: rng.pick(&[1, 5, 15]), ..habits(rng) };
    // So few cells that the scopes suffice.
    habits.cells.truncate(60 / habits.visits);
    let mut made = Made::default();
    for _ in 0..2 {
        fill(rng, &mut made, &habits);
        let length = made.rows.len();
        made.refused.retain(|(rows, _)| rows + 3 > length);
        open_and_try(bench, rng, &made, &habits, 3)?;
        for row in lacking_room(&made.ledger) {
            try_refused(bench, &made.rows, row)?;
        }
        grow(rng, &mut made, &[0, 0, 0, 1, 0, 0, 0], &habits, length + 30);
        grow(rng, &mut made, &[0, 0, 0, 0, 1, 0, 0], &habits, length + 31);
    }
    for _ in 0..6 {
        let taste = taste(rng);
        grow(rng, &mut made, &taste, &habits, 4_096);
    }
    let drain = [1, 1, 1, 40, 1, 20, 1];
    grow(rng, &mut made, &drain, &habits, 4_096);
    open_and_try(bench, rng, &made, &habits, 3)
}
