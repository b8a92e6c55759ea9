//! Stored writes. 01: "A fuse: none, or the number of stored writes that still land .. The write after the
//! last one doesn't land." 02, L1: "Every result, refusals included, carries the stored writes that this
//! call landed, rows and pages as two counts. A format's are zero. Over a session the counts add up to the
//! writes that landed, whether or not the fuse burnt."

use crate::cover::Cover;
use crate::store::{Answer, Writes};

/// An answer counts as many rows as the stored log has more than before, and a page where a flush is done.
/// So a refusal, and a call that finds the store closed, count none: they change no stored byte.
pub fn counted(writes: Writes, rows: usize, pages: usize) -> Result<(), String> {
    if (usize::from(writes.rows), usize::from(writes.pages)) == (rows, pages) {
        return Ok(());
    }
    let counts = format!("{} rows and {} pages", writes.rows, writes.pages);
    Err(format!("it counts {counts}, and has stored {rows} and {pages}"))
}

/// What an opening or a call of an open store made of the fuse that it began with, by the writes that its
/// answer counts: `left` is the fuse after it. A 5 means that every write of the fuse has landed.
pub fn judge(fuse: Option<u32>, answer: Answer, left: Option<u32>) -> Result<(), String> {
    let (number, writes) = (answer.number, u64::from(answer.writes.count()));
    if is_spent(fuse, writes, number != 5, left) {
        return Ok(());
    }
    Err(format!(
        "it answers {number} after {writes} writes, with fuse {fuse:?} before and {left:?} after it"
    ))
}

/// Whether so many writes have landed of a fuse of which `left` is left in an open store. In a closed one
/// nothing is left.
fn is_spent(fuse: Option<u32>, writes: u64, open: bool, left: Option<u32>) -> bool {
    match open {
        true => left.map(|left| u64::from(left) + writes) == fuse.map(u64::from),
        false => fuse.map(u64::from) == Some(writes),
    }
}

/// A session: an opening that answers 0 or 5, and what follows up to the next such opening. An opening that
/// is refused by 1 belongs to the session before it, whose fuse runs on.
pub struct Session {
    fuse: Option<u32>,
    /// The rows of the log when it began.
    stored: usize,
    /// The sums of the counts.
    rows: u64,
    pages: u64,
    /// Their sum when an opening was last refused by 1.
    resumed: Option<u64>,
}

impl Session {
    pub fn new(fuse: Option<u32>, stored: usize) -> Session {
        Session { fuse, stored, rows: 0, pages: 0, resumed: None }
    }

    /// An opening was refused by 1.
    pub fn resume(&mut self) {
        self.resumed = Some(self.rows + self.pages);
    }

    pub fn add(&mut self, writes: Writes) {
        self.rows += u64::from(writes.rows);
        self.pages += u64::from(writes.pages);
    }

    /// The next session begins. `open` says whether the store was open until then.
    pub fn end(&self, cover: &mut Cover, open: bool) {
        let writes = self.rows + self.pages;
        if writes == 0 {
            return;
        }
        cover.shape_if(
            true,
            match (open, self.fuse) {
                (true, None) => "session that stored something, no fuse",
                (true, Some(_)) => "session that stored something, its fuse not burnt",
                (false, _) => "session that stored something, its fuse burnt",
            },
        );
        let resumed = self.resumed.is_some_and(|before| before < writes);
        cover.shape_if(resumed, "session that stored on after an opening refused by 1");
    }

    /// The sums against the rows that the log has, and against the fuse that is left.
    pub fn judge(&self, stored: usize, open: bool, left: Option<u32>) -> Result<(), String> {
        let Session { fuse, rows, pages, .. } = *self;
        let grown = (stored - self.stored) as u64;
        if rows == grown && is_spent(fuse, rows + pages, open, left) {
            return Ok(());
        }
        Err(format!(
            "its session counts {rows} rows and {pages} pages, and has stored {grown} rows, with fuse \
             {fuse:?} before it and {left:?} left"
        ))
    }
}
