//! Random sessions: visits that change, hand over back and forth, commit and abort, with fuses,
//! arbitrary RAM before openings, wrong lengths and wrong arguments.

use crate::arena::{Arena, Outcome};
use crate::bench::{Bench, Failure};
use crate::paper::Ledger;
use crate::prng::Rng;
use crate::steps::Step;
use crate::store::{Buffer, Call, CELLS, RIGHT};

/// How a host behaves.
pub struct Habits {
    /// The cells it works on.
    pub cells: Vec<u8>,
    /// It begins no more visits while so many are active.
    pub visits: usize,
    /// How often it makes each call: begin, change, hand over, hand over all, commit, abort, force, flush,
    /// read.
    pub weights: [usize; 9],
    /// Whether its changes are a few grams, or as large as they can be.
    pub small: bool,
    /// One argument in so many is arbitrary.
    pub odd: usize,
}

pub fn habits(rng: &mut Rng) -> Habits {
    let mut weights = [0; 9];
    for weight in &mut weights {
        *weight = rng.pick(&[1, 1, 3, 8, 20]);
    }
    // Where whole visits are handed over all the time, no other visit holds much.
    weights[3] = weights[3].min(8);
    Habits {
        cells: cells(rng),
        visits: rng.pick(&[1, 2, 3, 5, 16]),
        weights,
        small: rng.chance(1, 2),
        odd: rng.pick(&[10, 40, 1_000]),
    }
}

/// A few cells, often on one page, or many.
fn cells(rng: &mut Rng) -> Vec<u8> {
    let count = rng.pick(&[1, 1, 2, 3, 5, 12, 70, CELLS]);
    let first = rng.pick(&[0, 5, 6, 100, CELLS - count.min(7)]);
    let stride = rng.pick(&[1, 1, 7, 31]);
    let cell = |index: usize| ((first + index * stride) % CELLS) as u8;
    (0..count).map(cell).collect()
}

pub fn amount(rng: &mut Rng, small: bool) -> i16 {
    if small {
        return rng.below(9) as i16 - 4;
    }
    let any = rng.draw() as i16;
    rng.pick(&[i16::MIN, i16::MAX, -200, -1, 0, any])
}

/// The next call of a host that sees these rows.
pub fn next_call(rng: &mut Rng, habits: &Habits, ledger: &Ledger) -> Call {
    let mut kind = rng.weighted(&habits.weights);
    if ledger.active.is_empty() && rng.chance(3, 4) {
        kind = 0;
    }
    if kind == 0 && ledger.active.len() >= habits.visits && rng.chance(14, 15) {
        kind = 1;
    }
    let visit = any_visit(rng, habits, ledger);
    let cell = match rng.below(habits.odd) {
        0 => rng.byte(),
        _ => rng.pick(&habits.cells),
    };
    match kind {
        0 => Call::Begin,
        1 => Call::Change { visit, cell, amount: amount(rng, habits.small) },
        2 => Call::HandOver {
            giver: visit,
            receiver: other_visit(rng, habits, ledger, visit),
            cell: held_cell(rng, ledger, visit).unwrap_or(cell),
        },
        3 => {
            let giver = holding_visit(rng, ledger).unwrap_or(visit);
            Call::HandOverAll { giver, receiver: other_visit(rng, habits, ledger, giver) }
        }
        4 => Call::Commit { visit },
        5 => Call::Abort { visit },
        6 => Call::Force,
        7 if rng.below(habits.odd) == 0 => Call::FlushPage { page: rng.byte() },
        7 => Call::FlushPage { page: cell / 7 },
        _ => Call::Read { cell },
    }
}

/// A call of a host that sees nothing, with arguments that are often in range.
pub fn any_call(rng: &mut Rng) -> Call {
    let mut visit = || rng.pick(&[0, 1, 1, 1, 2, 5, 11, 16, 17, 255, 256]);
    let (visit, receiver) = (visit(), visit());
    let cell = rng.byte();
    match rng.below(9) {
        0 => Call::Begin,
        1 => Call::Change { visit, cell, amount: rng.draw() as i16 },
        2 => Call::HandOver { giver: visit, receiver, cell },
        3 => Call::HandOverAll { giver: visit, receiver },
        4 => Call::Commit { visit },
        5 => Call::Abort { visit },
        6 => Call::Force,
        7 => Call::FlushPage { page: cell / 4 },
        _ => Call::Read { cell },
    }
}

/// Mostly an active visit; else one that ended, one that never began, or a number far off.
fn any_visit(rng: &mut Rng, habits: &Habits, ledger: &Ledger) -> u16 {
    let is_odd = rng.below(habits.odd) == 0;
    if ledger.active.is_empty() || is_odd {
        let near = rng.below(20) as u16;
        let far = rng.draw() as u16;
        // Another visit than an active one by its high byte alone.
        let alike = ledger.active.first().map_or(near, |visit| visit ^ 256);
        return rng.pick(&[0, near, 255, 256 + near, alike, far]);
    }
    rng.pick(&ledger.active)
}

/// Mostly another visit than this one, if there is one.
fn other_visit(rng: &mut Rng, habits: &Habits, ledger: &Ledger, visit: u16) -> u16 {
    let (one, two) = (any_visit(rng, habits, ledger), any_visit(rng, habits, ledger));
    if one == visit {
        two
    } else {
        one
    }
}

/// Mostly a cell of which the visit holds a change; none if it holds none.
pub fn held_cell(rng: &mut Rng, ledger: &Ledger, visit: u16) -> Option<u8> {
    let held: Vec<u8> = ledger
        .changes
        .iter()
        .rev()
        .take(100)
        .filter(|change| change.holder == visit)
        .map(|change| change.cell)
        .collect();
    (!held.is_empty() && rng.chance(4, 5)).then(|| rng.pick(&held))
}

/// Often a visit that holds something; none if no visit does.
pub fn holding_visit(rng: &mut Rng, ledger: &Ledger) -> Option<u16> {
    let holders: Vec<u16> = ledger.open_changes().rev().take(100).map(|change| change.holder).collect();
    (!holders.is_empty() && rng.chance(1, 2)).then(|| rng.pick(&holders))
}

/// No fuse, or one that is used up soon, or late, or never. 4,294,967,295 is none for C.
pub fn fuse(rng: &mut Rng) -> Option<u32> {
    match rng.below(6) {
        0 | 1 => None,
        2 => Some(rng.below(8) as u32),
        3 => Some(rng.below(100) as u32),
        4 => Some(rng.below(600) as u32),
        _ => Some(rng.pick(&[1 << 16, 1 << 24, 1 << 31, u32::MAX - 2, u32::MAX - 1, u32::MAX - 1])),
    }
}

pub fn formatted(rng: &mut Rng) -> Vec<i32> {
    match rng.below(3) {
        0 => vec![0; CELLS],
        1 => (0..CELLS).map(|_| rng.below(2_000_001) as i32 - 1_000_000).collect(),
        _ => (0..CELLS).map(|_| rng.pick(&[-1_000_000, 1_000_000])).collect(),
    }
}

/// A wrong length for one of the buffers; now and then the right one after all.
pub fn lend(rng: &mut Rng) -> Step {
    let buffer = rng.pick(&[Buffer::Log, Buffer::Charts, Buffer::Copy, Buffer::Scopes]);
    let right = RIGHT.get(buffer);
    let any = rng.below(2 * right);
    Step::Lend(buffer, rng.pick(&[0, 1, right / 2, right - 1, right, right + 1, any]))
}

/// One session of up to so many calls.
pub fn session(
    rng: &mut Rng,
    arena: &mut Arena,
    habits: &Habits,
    fuse: Option<u32>,
    calls: usize,
) -> Outcome<()> {
    if rng.chance(1, 4) {
        arena.step(Step::Scramble(rng.draw()))?;
    }
    if rng.chance(1, 12) {
        arena.step(lend(rng))?;
        arena.step(Step::Open(fuse))?;
        // Calls may follow a refused opening, if it got what the call before it left.
        for _ in 0..rng.below(4) {
            let call = next_call(rng, habits, arena.ledger());
            arena.step(Step::Call(call))?;
        }
    }
    arena.step(Step::Open(fuse))?;
    work(rng, arena, habits, calls)
}

/// Makes so many calls, or a few only where the store is closed.
pub fn work(rng: &mut Rng, arena: &mut Arena, habits: &Habits, calls: usize) -> Outcome<()> {
    let mut while_closed = 0;
    for _ in 0..calls {
        while_closed += usize::from(!arena.is_open());
        if while_closed > 4 {
            break;
        }
        if rng.chance(1, 60) {
            arena.step(lend(rng))?;
        }
        let call = next_call(rng, habits, arena.ledger());
        arena.step(Step::Call(call))?;
    }
    Ok(())
}

pub fn play(bench: &mut Bench, seed: u64) -> Result<(), Failure> {
    let rng = &mut Rng::new(seed);
    bench.case(|arena| {
        arena.step(Step::Format(formatted(rng)))?;
        let mut habits = habits(rng);
        let longest = rng.pick(&[20, 80, 200]);
        for _ in 0..1 + rng.below(6) {
            let (fuse, calls) = (fuse(rng), rng.below(longest));
            session(rng, arena, &habits, fuse, calls)?;
            if rng.chance(1, 30) {
                let mut cells = formatted(rng);
                let at = rng.below(CELLS);
                cells[at] = rng.pick(&[1_000_001, -1_000_001, i32::MAX, i32::MIN, 0]);
                cells.truncate(rng.pick(&[CELLS, CELLS, CELLS - 1]));
                if rng.chance(1, 2) {
                    arena.step(lend(rng))?;
                }
                arena.step(Step::Format(cells))?;
            }
            if rng.chance(1, 3) {
                habits = self::habits(rng);
            }
        }
        arena.step(Step::Open(None))?;
        Ok(())
    })?;
    Ok(())
}
