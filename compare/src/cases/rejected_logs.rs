//! Why a log is rejected (document 02, request L8): after an allowed log, or in the place of one of its rows,
//! stands a row that breaks a rule, one that is beyond a limit, or one that is both, with right bytes and with
//! wrong ones; or the row of the allowed log itself, with wrong bytes. How a row is made says which number it
//! gets: 3 where its bytes are wrong, else 16 where it breaks a rule, else 17.

use super::rows::make;
use super::sessions::lend;
use super::text::is_refused;
use crate::arena::{Arena, Outcome};
use crate::bench::{Bench, Failure};
use crate::paper::{is_allowed, is_named, Change, Ledger, Row};
use crate::paper::{ABORT, BEGIN, CHANGE, COMMIT, HAND_OVER, HAND_OVER_ALL, UNDO};
use crate::prng::Rng;
use crate::steps::{open, Step};

/// An allowed log up to the row that is made a bad one.
#[derive(Default)]
struct Log {
    rows: Vec<[u8; 16]>,
    ledger: Ledger,
    /// The row of the allowed log that stood in its place.
    stood: Option<[u8; 16]>,
    /// The rows that stood behind that row in the allowed log.
    behind: Vec<[u8; 16]>,
}

impl Log {
    fn of(rows: Vec<[u8; 16]>) -> Log {
        let ledger = Ledger::of(&rows.iter().map(|bytes| Row::read(bytes)).collect::<Vec<_>>());
        Log { rows, ledger, ..Log::default() }
    }

    /// Up to the row with this place, counted from 0, or all of it.
    fn up_to(mut rows: Vec<[u8; 16]>, place: usize) -> Log {
        let mut behind = rows.split_off(place);
        let stood = behind.drain(..behind.len().min(1)).next();
        Log { stood, behind, ..Log::of(rows) }
    }

    /// The row with the number of the next one.
    fn next(&self, row: Row) -> Row {
        Row { number: self.rows.len() as u16 + 1, ..row }
    }

    fn push(&mut self, row: Row) {
        let row = self.next(row);
        self.rows.push(row.bytes());
        self.ledger.add(row);
    }

    fn begin(&self) -> Row {
        Row { kind: BEGIN, visit: self.ledger.begin_rows() as u16 + 1, ..Row::default() }
    }

    /// Adds rows of these two in turns, as long as they are allowed and at most so many.
    fn fill(&mut self, most: usize, turns: [Row; 2]) {
        for at in 0..most {
            let row = self.next(turns[at % 2]);
            if !is_allowed(&self.ledger, &row.bytes()) {
                break;
            }
            self.push(row);
        }
    }
}

fn change(visit: u16, cell: u8) -> Row {
    Row { kind: CHANGE, visit, cell, change: 7, ..Row::default() }
}

/// Sixteen visits are active, after a log of rows of all kinds.
fn sixteen_active(rng: &mut Rng) -> Log {
    let mut log = Log::of(make(rng.draw(), 1 + rng.below(40)));
    let begin = |log: &Log| log.next(log.begin());
    while is_allowed(&log.ledger, &begin(&log).bytes()) {
        log.push(log.begin());
    }
    log
}

/// Two visits, each with a change of the same cell, and as many changes of other cells as there are scopes.
fn scopes_used_up(rng: &mut Rng) -> Log {
    let mut log = Log::default();
    log.push(log.begin());
    log.push(log.begin());
    for scope in 0..64 {
        log.push(change(1 + scope % 2, (scope / 2) as u8));
    }
    // A scope that is wholly undone stays in use.
    if rng.chance(1, 2) {
        log.push(Row { kind: UNDO, undone: 66, ..change(2, 31) });
    }
    log
}

/// Changes until none is allowed, then hand-overs until none is, to leave no row free beyond the reserve.
fn fill_up(log: &mut Log, hand_overs: usize) {
    log.fill(4_096, [change(1, 0), change(1, 0)]);
    let there = Row { kind: HAND_OVER, visit: 1, receiver: 2, ..Row::default() };
    log.fill(hand_overs, [there, Row { visit: 2, receiver: 1, ..there }]);
}

/// No room for a change; for a hand-over as `hand_overs` says.
fn full(visits: usize, hand_overs: usize) -> Log {
    let mut log = Log::default();
    for _ in 0..visits {
        log.push(log.begin());
    }
    fill_up(&mut log, hand_overs);
    log
}

/// Rows whose bytes are right and that break a rule: all that this log offers of each kind.
fn against_rules(rng: &mut Rng, log: &Log) -> Vec<Row> {
    let ledger = &log.ledger;
    let begun = ledger.begin_rows() as u16;
    let mut rows = Vec::new();
    for visit in [0, begun, begun + 2, u16::MAX] {
        rows.push(Row { kind: BEGIN, visit, ..Row::default() });
    }
    let ended = (1..=begun).find(|visit| !ledger.is_active(*visit));
    let inactive: Vec<u16> = [0, begun + 1, u16::MAX].into_iter().chain(ended).collect();
    for &visit in &inactive {
        rows.push(change(visit, rng.pick(&[0, 223])));
        rows.extend([COMMIT, ABORT].map(|kind| Row { kind, visit, ..Row::default() }));
    }
    for &visit in &ledger.active {
        rows.extend(against_rules_by(rng, ledger, visit, &inactive));
    }
    rows
}

/// Those that an active visit bears, gives, receives or holds.
fn against_rules_by(rng: &mut Rng, ledger: &Ledger, visit: u16, inactive: &[u16]) -> Vec<Row> {
    let mut rows = vec![change(visit, 224), change(visit, 255)];
    let whole = Row { kind: HAND_OVER_ALL, visit, ..Row::default() };
    let cell = ledger.cells_held(visit).first().copied().unwrap_or(0);
    let single = Row { kind: HAND_OVER, cell, ..whole };
    // To itself; from and to a visit that is not active.
    let other = rng.pick(inactive);
    rows.extend([Row { receiver: visit, ..whole }, Row { receiver: visit, ..single }]);
    rows.extend([Row { receiver: other, ..whole }, Row { receiver: other, ..single }]);
    rows.extend([whole, single].map(|row| Row { visit: other, receiver: visit, ..row }));
    let receiver = ledger.active.iter().copied().find(|receiver| *receiver != visit);
    if let Some(receiver) = receiver {
        // Cells that are none, or of which it holds no change.
        for cell in [224, 255] {
            rows.push(Row { receiver, cell, ..single });
        }
        let unheld = (0..=223).find(|cell| !ledger.holds(visit, *cell));
        rows.extend(unheld.map(|cell| Row { receiver, cell, ..single }));
        if !ledger.holds_something(visit) {
            rows.push(Row { receiver, ..whole });
        }
    }
    if ledger.bears_undo(visit) {
        rows.extend([change(visit, 0), Row { kind: COMMIT, visit, ..Row::default() }]);
        if let Some(receiver) = receiver {
            rows.extend([whole, single].map(|row| Row { receiver, ..row }));
            rows.extend([whole, single].map(|row| Row { visit: receiver, receiver: visit, ..row }));
        }
    }
    match ledger.highest_open(visit) {
        Some(highest) => {
            rows.push(Row { kind: ABORT, visit, ..Row::default() });
            rows.extend(against_undo(ledger, visit, highest));
        }
        None => rows.push(Row { kind: UNDO, undone: 1, ..change(visit, 0) }),
    }
    rows
}

/// Undo rows of a visit that has an open change, but not of its highest, or not with its cell and grams.
fn against_undo(ledger: &Ledger, visit: u16, highest: &Change) -> Vec<Row> {
    let Change { row, cell, amount, .. } = *highest;
    let right = Row { kind: UNDO, visit, cell, undone: row, change: amount, ..Row::default() };
    let next = ledger.rows.len() as u16 + 1;
    let mut rows: Vec<Row> = [0, row - 1, row + 1, next, next + 1, 4_097, u16::MAX]
        .map(|undone| Row { undone, ..right })
        .into();
    rows.extend([224, 255, cell ^ 1].map(|cell| Row { cell, ..right }));
    let others = [amount.wrapping_add(1), amount.wrapping_sub(1), !amount];
    rows.extend(others.map(|change| Row { change, ..right }));
    let holder = ledger.active.iter().find(|other| **other != visit);
    rows.extend(holder.map(|holder| Row { visit: *holder, ..right }));
    rows.push(Row { visit: 0, ..right });
    let mut lower = ledger.open_changes().filter(|change| change.holder == visit && change.row < row);
    let lower = lower.next_back().map(|change| Row {
        undone: change.row,
        cell: change.cell,
        change: change.amount,
        ..right
    });
    rows.extend(lower);
    rows
}

/// Rows that break no rule and are beyond a limit.
fn beyond_limits(log: &Log) -> Vec<Row> {
    let ledger = &log.ledger;
    let lacks = |rows: usize| ledger.free() < ledger.reserve() + rows;
    let mut rows = Vec::new();
    if ledger.active.len() == 16 || lacks(2) {
        rows.push(log.begin());
    }
    let works: Vec<u16> =
        ledger.active.iter().copied().filter(|visit| !ledger.bears_undo(*visit)).collect();
    if let Some(&visit) = works.first() {
        let used_up = ledger.scopes_in_use() == 64;
        rows.extend(
            [0, 100, 223]
                .into_iter()
                .filter(|cell| lacks(2) || (used_up && ledger.starts_scope(visit, *cell)))
                .map(|cell| change(visit, cell)),
        );
    }
    for &visit in works.iter().filter(|_| lacks(1)) {
        let receiver = works.iter().find(|receiver| **receiver != visit);
        let cell = ledger.cells_held(visit).first().copied();
        if let (Some(&receiver), Some(cell)) = (receiver, cell) {
            let whole = Row { kind: HAND_OVER_ALL, visit, receiver, ..Row::default() };
            rows.extend([whole, Row { kind: HAND_OVER, cell, ..whole }]);
        }
    }
    rows
}

/// Makes the row's bytes wrong in one of the ways that 02 names.
fn with_wrong_bytes(rng: &mut Rng, mut bytes: [u8; 16]) -> [u8; 16] {
    let number = u16::from_le_bytes([bytes[4], bytes[5]]);
    match rng.below(4) {
        0 => bytes[0] = rng.pick(&[8, 9, 15, 16, 128, 255]),
        // Kind 0 ends the log, and the row's own number stands after the end.
        1 => bytes[0] = 0,
        2 => {
            let unnamed: Vec<usize> = (1..16).filter(|at| !is_named(bytes[0], *at)).collect();
            bytes[rng.pick(&unnamed)] = rng.pick(&[1, 128, 255]);
        }
        _ => {
            let other = rng.pick(&[0, number - 1, number + 1, number ^ 256, u16::MAX]);
            bytes[4..6].copy_from_slice(&other.to_le_bytes());
        }
    }
    bytes
}

/// The row after the log is refused by this number, and with wrong bytes by 3.
fn is_rejected(rng: &mut Rng, arena: &mut Arena, log: &Log, row: Row, number: u8) -> Outcome<()> {
    let bytes = log.next(row).bytes();
    let mut rows = log.rows.clone();
    rows.push(bytes);
    // Whatever comes after it.
    if rng.chance(1, 4) && rows.len() < 4_096 {
        is_refused_before(arena, number, &rows, &[rng.pick(&[[255; 16], bytes, [0; 16]])])?;
    }
    is_refused_before(arena, number, &rows, &log.behind)?;
    // A buffer of another length is refused before the log is looked at.
    if rng.chance(1, 4) {
        arena.step(lend(rng))?;
        arena.step(open(None))?;
    }
    rows[log.rows.len()] = with_wrong_bytes(rng, bytes);
    is_refused_before(arena, 3, &rows, &log.behind)
}

/// The last of the rows is the first that is not allowed, whatever stands behind it.
fn is_refused_before(
    arena: &mut Arena,
    number: u8,
    rows: &[[u8; 16]],
    behind: &[[u8; 16]],
) -> Outcome<()> {
    arena.step(Step::WriteLog([rows, behind].concat()))?;
    arena.expect(open(None), number, rows.len() as i64)
}

/// A row behind the end of the log, be it an allowed one or not; and a single byte there.
fn is_rejected_after_end(rng: &mut Rng, arena: &mut Arena, log: &Log) -> Outcome<()> {
    let length = log.rows.len();
    if length + 2 > 4_096 {
        return Ok(());
    }
    let mut rows = log.rows.clone();
    rows.resize(length + rng.pick(&[1, 1, 2]).min(4_095 - length), [0; 16]);
    let number = rng.pick(&[length + 1, rows.len() + 1]) as u16;
    rows.push(Row { number, ..log.begin() }.bytes());
    is_refused(arena, 3, &rows)?;
    arena.step(Step::WriteLog(log.rows.clone()))?;
    let late = 16 * length + rng.below(65_536 - 16 * length);
    // A kind would not be after the end.
    let late = if late == 16 * length { late + 1 } else { late };
    arena.step(Step::WriteLogByte(late, rng.pick(&[1, 128])))?;
    arena.expect(open(None), 3, (late / 16) as i64 + 1)
}

/// All limits together take thousands of rows, so one seed in so many has them.
const FULL: u64 = 80;

pub fn play(bench: &mut Bench, seed: u64) -> Result<(), Failure> {
    let rng = &mut Rng::new(seed);
    let log = match seed % FULL {
        0 => full(2, rng.pick(&[1, 2])),
        1 => full(16, 2),
        2 => {
            let mut log = scopes_used_up(rng);
            fill_up(&mut log, 2);
            log
        }
        3..=14 => scopes_used_up(rng),
        15..=30 => sixteen_active(rng),
        _ => {
            let rows = make(rng.draw(), 1 + rng.below(120));
            let place = if rng.chance(1, 2) { rows.len() } else { rng.below(rows.len() + 1) };
            Log::up_to(rows, place)
        }
    };
    bench.case(|arena| {
        // The log is checked before the pages.
        if rng.chance(1, 3) {
            arena.step(Step::WriteCharts(32 * rng.below(32) + 2, vec![1]))?;
        }
        let most = if log.rows.len() > 2_000 { 3 } else { 24 };
        let broken = against_rules(rng, &log);
        for _ in 0..most {
            let row = rng.pick(&broken);
            is_rejected(rng, arena, &log, row, 16)?;
        }
        for row in beyond_limits(&log) {
            is_rejected(rng, arena, &log, row, 17)?;
        }
        if let Some(stood) = log.stood {
            let damaged = with_wrong_bytes(rng, stood);
            is_refused_before(arena, 3, &[&log.rows[..], &[damaged]].concat(), &log.behind)?;
        }
        is_rejected_after_end(rng, arena, &log)
    })?;
    Ok(())
}
