//! The customer's demand 3, and what document 02 asks of begins (request L4), checked on the bytes that the
//! sessions leave. The comparison shows that the stores agree; this shows that what they agree on is what was
//! asked for.
//!
//! It holds for a formatted store whose memory nobody else writes.

use crate::paper::{get_cell, rows_of, Row};
use crate::paper::{ABORT, BEGIN, CHANGE, COMMIT, HAND_OVER, HAND_OVER_ALL, UNDO};
use std::collections::BTreeSet;

pub struct Demands {
    formatted: Vec<i32>,
    /// The stored rows as last seen.
    logged: Vec<u8>,
    undone: BTreeSet<u16>,
    aborted: BTreeSet<u16>,
    /// Rows of the changes that a visit held when its commit was answered done.
    promised: Vec<u16>,
    /// The visit of the last begin that was answered done, or 0.
    last_visit: i64,
}

impl Demands {
    pub fn new(formatted: &[i32]) -> Demands {
        Demands {
            formatted: formatted.to_vec(),
            logged: Vec::new(),
            undone: BTreeSet::new(),
            aborted: BTreeSet::new(),
            promised: Vec::new(),
            last_visit: 0,
        }
    }

    /// After each call: "the stored log .. stands unchanged at the start of every later one", and "no
    /// log has two undo rows for a change or two abort rows for a visit".
    pub fn after_call(&mut self, log: &[u8]) -> Result<(), String> {
        if !log.starts_with(&self.logged) {
            return Err("a stored row has changed".into());
        }
        let new = rows_of(&log[self.logged.len()..]);
        for row in &new {
            if row.kind == UNDO && !self.undone.insert(row.undone) {
                return Err(format!("two undo rows for the change in row {}", row.undone));
            }
            if row.kind == ABORT && !self.aborted.insert(row.visit) {
                return Err(format!("two abort rows for visit {}", row.visit));
            }
        }
        let end = self.logged.len() + 16 * new.len();
        self.logged.extend_from_slice(&log[self.logged.len()..end]);
        Ok(())
    }

    /// After a commit answered done: it "has its row in the log from then on". `held` are the rows of
    /// the changes that the visit held.
    pub fn after_commit(
        &mut self,
        log: &[u8],
        visit: u16,
        row: i64,
        held: &[u16],
    ) -> Result<(), String> {
        let found = rows_of(log)
            .iter()
            .any(|r| r.kind == COMMIT && r.visit == visit && i64::from(r.number) == row);
        if !found {
            return Err(format!("visit {visit} is committed without its row"));
        }
        self.promised.extend_from_slice(held);
        Ok(())
    }

    /// After a begin answered done: it "has its row in every later log", which is so from here on since the
    /// log only grows, and "no number is given to two visits". What waited was forced before its row.
    pub fn after_begin(&mut self, log: &[u8], visit: i64) -> Result<(), String> {
        let is_its = |row: &Row| row.kind == BEGIN && i64::from(row.visit) == visit;
        if !rows_of(log).last().is_some_and(is_its) {
            return Err(format!("visit {visit} has begun and its row is not the last one stored"));
        }
        if visit <= self.last_visit {
            return Err(format!("visit {visit} has begun after visit {}", self.last_visit));
        }
        self.last_visit = visit;
        Ok(())
    }

    /// After an opening that ends ready.
    pub fn after_ready(&self, log: &[u8], copy: &[u8]) -> Result<(), String> {
        let rows = rows_of(log);
        let mut sums: Vec<i64> = self.formatted.iter().map(|grams| i64::from(*grams)).collect();
        for change in rows.iter().filter(|row| row.kind == CHANGE) {
            let holder = last_holder(&rows, change);
            let kept = rows.iter().any(|row| row.kind == COMMIT && row.visit == holder);
            // "A logged change has an undo row exactly when it isn't in the sum."
            if kept == self.undone.contains(&change.number) {
                return Err(format!("row {} is both kept and undone, or neither", change.number));
            }
            // "Every change its visit then held is in every later sum."
            if !kept && self.promised.contains(&change.number) {
                return Err(format!("row {} was committed and is not kept", change.number));
            }
            if kept {
                sums[usize::from(change.cell)] += i64::from(change.change);
            }
        }
        // "Each cell is the formatted value plus the sum of the logged changes whose last holder has a
        // commit row."
        for (cell, sum) in sums.iter().enumerate() {
            let grams = i64::from(get_cell(copy, cell as u8));
            if grams != *sum {
                return Err(format!("cell {cell} is {grams} g and should be {sum} g"));
            }
        }
        Ok(())
    }
}

/// "A last holder is the holder after its last row." A hand-over of all that a visit holds is one of each
/// change that it holds.
fn last_holder(rows: &[Row], change: &Row) -> u16 {
    let later = &rows[usize::from(change.number)..];
    let concerns = |row: &&Row| match row.kind {
        HAND_OVER => row.cell == change.cell,
        kind => kind == HAND_OVER_ALL,
    };
    let hand_overs = later.iter().filter(concerns);
    hand_overs.fold(change.visit, |holder, row| if row.visit == holder { row.receiver } else { holder })
}
