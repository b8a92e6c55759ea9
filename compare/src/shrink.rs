//! Makes a case in which the stores differ as short as it can.
//!
//! Every list of steps is a case, so steps can be left out freely. What is tried is kept whenever the
//! stores still differ, in whatever way.

use crate::arena::Maker;
use crate::bench::{Bench, Failure};
use crate::paper::BEGIN;
use crate::steps::Step;
use crate::store::{Call, CELLS};
use std::time::{Duration, Instant};

/// The shortest case found within the time, or none if the steps alone show no difference.
pub fn shrink(makers: &[Maker], steps: &[Step], time: Duration) -> Option<Failure> {
    let mut shrinker =
        Shrinker { makers: makers.to_vec(), end: Instant::now() + time, best: replay(makers, steps)? };
    while shrinker.round() {}
    Some(shrinker.best)
}

/// Plays the steps; a failure has only the steps up to the difference.
fn replay(makers: &[Maker], steps: &[Step]) -> Option<Failure> {
    let played = Bench::new(makers.to_vec()).case(|arena| arena.steps(steps));
    played.err()
}

struct Shrinker {
    makers: Vec<Maker>,
    end: Instant,
    best: Failure,
}

impl Shrinker {
    /// Tries everything once; says whether something was gained and time is left.
    fn round(&mut self) -> bool {
        let pieces = self.leave_out_pieces();
        let visits = self.leave_out_visits();
        let writes = self.leave_out_writes();
        let rows = self.leave_out_rows();
        let simpler = self.simplify();
        (pieces || visits || writes || rows || simpler) && Instant::now() < self.end
    }

    /// Keeps the steps if the stores still differ.
    fn attempt(&mut self, steps: Vec<Step>) -> bool {
        if Instant::now() >= self.end {
            return false;
        }
        match replay(&self.makers, &steps) {
            Some(failure) => {
                self.best = failure;
                true
            }
            None => false,
        }
    }

    /// Leaves out runs of steps, long ones first.
    fn leave_out_pieces(&mut self) -> bool {
        let mut gained = false;
        let mut size = self.best.steps.len() / 2;
        while size > 0 {
            let mut at = 0;
            while at < self.best.steps.len() {
                let mut steps = self.best.steps.clone();
                steps.drain(at..(at + size).min(steps.len()));
                if self.attempt(steps) {
                    gained = true;
                } else {
                    at += size;
                }
            }
            size /= 2;
        }
        gained
    }

    /// Leaves out a begin with all later calls of its visit; higher visits move down by one. The
    /// visit's number is taken to be the number of begins up to it.
    fn leave_out_visits(&mut self) -> bool {
        let mut gained = false;
        let mut visit = 1;
        loop {
            let is_begin = |step: &&Step| **step == Step::Call(Call::Begin);
            let begins = self.best.steps.iter().filter(is_begin).count();
            if usize::from(visit) > begins {
                return gained;
            }
            let steps = without_visit(&self.best.steps, visit);
            if self.attempt(steps) {
                gained = true;
            } else {
                visit += 1;
            }
        }
    }

    /// Leaves out a step together with the writes that it may have made: the fuse before it is cut
    /// shorter.
    fn leave_out_writes(&mut self) -> bool {
        let mut gained = false;
        let mut at = 0;
        while at < self.best.steps.len() {
            let attempts = (1..=3).filter_map(|writes| without_writes(&self.best.steps, at, writes));
            let attempts: Vec<Vec<Step>> = attempts.collect();
            if attempts.into_iter().any(|steps| self.attempt(steps)) {
                gained = true;
            } else {
                at += 1;
            }
        }
        gained
    }

    /// Leaves out rows of logs that the host writes: runs of rows, long ones first, then whole visits.
    fn leave_out_rows(&mut self) -> bool {
        let mut gained = false;
        for index in 0..self.best.steps.len() {
            let mut size = self.rows_at(index).map_or(0, <[_]>::len).div_ceil(2);
            while size > 0 {
                gained |= self.each_of_log(index, size, |rows, at| {
                    kept_rows(rows, |row| row < at || row >= at + size)
                });
                size /= 2;
            }
            gained |= self.each_of_log(index, 1, without_begin);
        }
        gained
    }

    fn rows_at(&self, index: usize) -> Option<&[[u8; 16]]> {
        match self.best.steps.get(index) {
            Some(Step::WriteLog(rows)) => Some(rows),
            _ => None,
        }
    }

    /// Tries an alteration at every row of a log, or at every so many rows.
    fn each_of_log(
        &mut self,
        index: usize,
        size: usize,
        alter: impl Fn(&[[u8; 16]], usize) -> Vec<[u8; 16]>,
    ) -> bool {
        let mut gained = false;
        let mut at = 0;
        while let Some(rows) = self.rows_at(index).filter(|rows| at < rows.len()) {
            let fewer = alter(rows, at);
            let is_less = fewer.len() < rows.len();
            if is_less && self.attempt(replaced(&self.best.steps, index, Step::WriteLog(fewer))) {
                gained = true;
            } else {
                at += size;
            }
        }
        gained
    }

    /// Replaces single steps by simpler ones.
    fn simplify(&mut self) -> bool {
        let mut gained = false;
        for index in 0..self.best.steps.len() {
            let Some(step) = self.best.steps.get(index) else {
                break;
            };
            for simpler in simpler(step) {
                if self.attempt(replaced(&self.best.steps, index, simpler)) {
                    gained = true;
                    break;
                }
            }
        }
        gained
    }
}

fn replaced(steps: &[Step], index: usize, step: Step) -> Vec<Step> {
    let mut steps = steps.to_vec();
    steps[index] = step;
    steps
}

/// The steps without this one, and with so many writes less in the fuse before it.
fn without_writes(steps: &[Step], at: usize, writes: u32) -> Option<Vec<Step>> {
    let opening = steps[..at].iter().rposition(|step| matches!(step, Step::Open(_)))?;
    let Step::Open(Some(left)) = steps[opening] else {
        return None;
    };
    let mut steps = replaced(steps, opening, Step::Open(Some(left.checked_sub(writes)?)));
    steps.remove(at);
    Some(steps)
}

fn without_visit(steps: &[Step], visit: u16) -> Vec<Step> {
    let lower = |other: u16| if other > visit { other - 1 } else { other };
    let mut begun = 0;
    let mut out = Vec::new();
    for step in steps {
        let call = match step {
            Step::Call(call) => *call,
            other => {
                out.push(other.clone());
                continue;
            }
        };
        let call = match call {
            Call::Begin => {
                begun += 1;
                if begun == visit {
                    continue;
                }
                call
            }
            Call::Change { visit: v, .. } | Call::Commit { visit: v } | Call::Abort { visit: v }
                if v == visit =>
            {
                continue
            }
            Call::HandOver { giver, receiver, .. } | Call::HandOverAll { giver, receiver }
                if giver == visit || receiver == visit =>
            {
                continue
            }
            Call::Change { visit, cell, amount } => Call::Change { visit: lower(visit), cell, amount },
            Call::HandOver { giver, receiver, cell } => {
                Call::HandOver { giver: lower(giver), receiver: lower(receiver), cell }
            }
            Call::HandOverAll { giver, receiver } => {
                Call::HandOverAll { giver: lower(giver), receiver: lower(receiver) }
            }
            Call::Commit { visit } => Call::Commit { visit: lower(visit) },
            Call::Abort { visit } => Call::Abort { visit: lower(visit) },
            Call::Force | Call::FlushPage { .. } | Call::Read { .. } => call,
        };
        out.push(Step::Call(call));
    }
    out
}

/// The rows that are kept; own numbers and rows undone move with them.
fn kept_rows(rows: &[[u8; 16]], keep: impl Fn(usize) -> bool) -> Vec<[u8; 16]> {
    let kept_before = |number: usize| (0..number.min(rows.len())).filter(|row| keep(*row)).count();
    let renumbered = |number: u16| match number {
        0 => 0,
        _ => kept_before(usize::from(number) - 1) as u16 + 1,
    };
    let mut out = Vec::new();
    for (index, row) in rows.iter().enumerate().filter(|(index, _)| keep(*index)) {
        let mut row = *row;
        let own = u16::from_le_bytes([row[4], row[5]]);
        if usize::from(own) == index + 1 {
            row[4..6].copy_from_slice(&renumbered(own).to_le_bytes());
        }
        let undone = u16::from_le_bytes([row[6], row[7]]);
        row[6..8].copy_from_slice(&renumbered(undone).to_le_bytes());
        out.push(row);
    }
    out
}

/// If this row is a begin, the rows without it and without all rows of its visit; higher visits move
/// down by one.
fn without_begin(rows: &[[u8; 16]], at: usize) -> Vec<[u8; 16]> {
    let [kind, visit, ..] = rows[at];
    if kind != BEGIN {
        return rows.to_vec();
    }
    let mut out = kept_rows(rows, |row| rows[row][1] != visit && rows[row][2] != visit);
    for row in &mut out {
        for field in [1, 2] {
            row[field] -= u8::from(row[field] > visit);
        }
    }
    out
}

/// Simpler steps to try in place of this one, the simplest first.
fn simpler(step: &Step) -> Vec<Step> {
    match step {
        Step::Format(cells) => {
            let zeros = vec![0; cells.len()];
            let right = vec![0; CELLS];
            [right, zeros].into_iter().filter(|simple| simple != cells).map(Step::Format).collect()
        }
        Step::Open(Some(left)) => {
            let fewer = [None, Some(0), Some(left / 2), Some(left.saturating_sub(1))];
            fewer.into_iter().filter(|fuse| *fuse != Some(*left)).map(Step::Open).collect()
        }
        Step::Call(Call::Change { visit, cell, amount }) => [(0, 1), (0, *amount), (*cell, 1)]
            .into_iter()
            .filter(|simple| *simple != (*cell, *amount))
            .map(|(cell, amount)| Step::Call(Call::Change { visit: *visit, cell, amount }))
            .collect(),
        Step::RedoPages(pages) => (0..pages.len())
            .map(|at| {
                let mut fewer = pages.clone();
                fewer.remove(at);
                Step::RedoPages(fewer)
            })
            .collect(),
        Step::Garbage(seed, calls) => (0..calls.len())
            .map(|at| {
                let mut fewer = calls.clone();
                fewer.remove(at);
                Step::Garbage(*seed, fewer)
            })
            .collect(),
        _ => Vec::new(),
    }
}
