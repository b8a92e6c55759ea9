//! How a call on altered RAM ended: what it left and counted, judged by the same call without a fuse.

use super::memory::{Leaves, Memory};
use super::power;
use crate::paper::{Row, UNDO};
use crate::report;
use crate::store::{Answer, Call, State, Store, Writes, PAGE, ROW, ROWS, TAIL_ROWS};

/// How a call ended, as the cover names it; or what is wrong with that.
pub type Ending = Result<&'static str, String>;

/// A call that was made, and the store before and after it.
pub struct Made {
    pub call: Call,
    pub answer: Answer,
    pub state: State,
    pub before: Memory,
    pub after: Memory,
}

impl Made {
    pub fn refused_by(&self, number: u8) -> Result<(), String> {
        if self.answer.number != number {
            return Err(format!("the answer should be {number}"));
        }
        power::counted(self.answer.writes, 0, 0)?;
        Leaves::REFUSED.judge(&self.before, &self.after)
    }

    /// The store is open and its counters are within their limits. `whole` is the same store after the same
    /// call without a fuse, which answered `without_fuse`; `store` is the one with the fuse.
    pub fn judged_by(&self, without_fuse: Answer, whole: &dyn Store, store: &dyn Store) -> Ending {
        let used_up = self.call == Call::Begin && self.state.begun == 65_535;
        if used_up != (without_fuse.number == 6) {
            return Err("a begin answers 6 where 65,535 visits have begun, and nowhere else".into());
        }
        match without_fuse.number {
            0 => {
                let pages = usize::from(matches!(self.call, Call::FlushPage { .. }));
                let rows = whole.state().stored.checked_sub(self.state.stored);
                let rows = rows.ok_or("it has fewer rows stored than before")?;
                power::counted(without_fuse.writes, rows, pages)?;
                match self.state.fuse {
                    Some(left) if left < without_fuse.writes.count() => {
                        self.cut(whole, left as usize).map(|()| "5, power failed")
                    }
                    fuse => {
                        self.done(without_fuse, whole, store)?;
                        Ok(if fuse.is_some() { "done under a fuse" } else { "done" })
                    }
                }
            }
            5 => {
                self.log_is_full(whole)?;
                let rows = self.rows_until_full(without_fuse.writes, whole)?;
                let left = self.state.fuse.map_or(rows, |left| left as usize);
                self.cut(whole, rows.min(left)).map(|()| "5, the log is full")
            }
            6 => self.refused_by(6).map(|()| "refused by 6, visits used up"),
            number => self.refused_by(number).map(|()| "refused by another number"),
        }
    }

    /// The fuse sufficed for all writes.
    fn done(&self, without_fuse: Answer, whole: &dyn Store, store: &dyn Store) -> Result<(), String> {
        if self.answer != without_fuse {
            return Err(format!("without a fuse it answers {}", report::answer(without_fuse)));
        }
        power::judge(self.state.fuse, self.answer, store.state().fuse)?;
        self.keeps_the_rest(self.answer.writes, &self.after)?;
        let mut unfused = store.copied();
        unfused.set_fuse(None);
        Leaves::REFUSED
            .judge(&Memory::of(whole), &Memory::of(unfused.as_ref()))
            .map_err(|text| format!("without a fuse and with one, {text}"))
    }

    /// Power failed, or the log had too few rows: of the rows that `whole` wrote so many landed.
    fn cut(&self, whole: &dyn Store, rows: usize) -> Result<(), String> {
        if self.answer.number != 5 {
            return Err("the fuse has too few writes, or the log too few rows".into());
        }
        power::counted(self.answer.writes, rows, 0)?;
        Leaves::CUT.judge(&self.before, &self.after)?;
        let landed = ROW * (self.state.stored + rows);
        let log = [&whole.log()[..landed], &self.before.log[landed..]].concat();
        if self.after.log != log {
            return Err(format!("rows have landed other than the first {rows}"));
        }
        Ok(())
    }

    /// The call has stored so much: in `after` no stored byte has changed but those of so many rows behind the
    /// stored ones, and of the page that is flushed.
    fn keeps_the_rest(&self, writes: Writes, after: &Memory) -> Result<(), String> {
        let first = ROW * self.state.stored;
        let behind = first + ROW * usize::from(writes.rows);
        let log = [&self.before.log[..first], &after.log[first..behind], &self.before.log[behind..]];
        let mut charts = self.before.charts.clone();
        if let (Call::FlushPage { page }, 1) = (self.call, writes.pages) {
            let bytes = PAGE * usize::from(page)..PAGE * (usize::from(page) + 1);
            charts[bytes.clone()].copy_from_slice(&after.charts[bytes]);
        }
        if log.concat() != after.log || charts != after.charts {
            return Err("a stored byte has changed beside those that it counts".into());
        }
        Ok(())
    }

    /// Without a fuse the call ends for want of rows: a commit finds none for its own; an abort has used up
    /// all that were free for undo rows, of which the last, no more than a tail, need not be stored.
    fn log_is_full(&self, whole: &dyn Store) -> Result<(), String> {
        let rows = self.state.stored + self.state.waiting;
        let mut undo_rows = rows + 1..=ROWS - TAIL_ROWS;
        let is_full = match self.call {
            Call::Commit { .. } => rows == ROWS,
            Call::Abort { .. } => undo_rows.all(|number| is_undo_row(whole.log(), number)),
            _ => false,
        };
        if !is_full {
            return Err("there is no fuse, and the log is not full".into());
        }
        Leaves::CUT.judge(&self.before, &Memory::of(whole))
    }

    /// The rows that `whole` counts, having ended for want of rows: of those that waited the first, then undo
    /// rows.
    fn rows_until_full(&self, writes: Writes, whole: &dyn Store) -> Result<usize, String> {
        let State { stored, waiting, tail, .. } = &self.state;
        let last = stored + usize::from(writes.rows);
        if writes.pages != 0 || last > ROWS {
            return Err("without a fuse it counts a page, or more rows than the log has".into());
        }
        let has_waited = |number: usize| {
            let place = ROW * (number - stored - 1);
            whole.log()[ROW * (number - 1)..ROW * number] == tail[place..place + ROW]
        };
        let is_stored = |number: usize| match number > stored + waiting {
            true => is_undo_row(whole.log(), number),
            false => has_waited(number),
        };
        if !(stored + 1..=last).all(is_stored) {
            return Err("without a fuse it counts a row that it has not stored".into());
        }
        self.keeps_the_rest(writes, &Memory::of(whole))?;
        Ok(usize::from(writes.rows))
    }
}

/// Whether the row of this number is an undo row.
fn is_undo_row(log: &[u8], number: usize) -> bool {
    let row = Row::read(&log[ROW * (number - 1)..ROW * number]);
    row.kind == UNDO && usize::from(row.number) == number
}
