//! The workloads: for each the calls that make ready, and the calls that are measured.

use crate::stores::Call::{self, *};
use compare::store::CELLS;

/// Puts the calls of a workload into a script.
pub type Workload = fn(&mut Script);

/// All workloads by their names, in the order of the reports.
pub const WORKLOADS: [(&str, Workload); 34] = [
    ("format", format),
    ("read", read),
    ("begin", begin),
    ("change, a new scope", change_new_scope),
    ("change, in a scope", change_in_scope),
    ("hand over", hand_over),
    ("hand over of a whole visit, 8 scopes", hand_over_all),
    ("commit", |script| ends(script, Commit)),
    ("abort of one change", |script| ends(script, Abort)),
    ("force of 64 rows", force),
    ("flush", flush),
    ("refused change", refused_change),
    ("visits of 10 changes and 2 hand-overs", visits),
    ("abort of 2,047 changes of one cell", |script| long_abort(script, 1)),
    ("abort of 2,047 changes of 64 cells", |script| long_abort(script, 64)),
    ("open: empty log", |script| script.measure([Open])),
    ("open: 4,096 committed rows", open_committed),
    ("open: 63 open changes of one cell", |script| open_changes(script, 63, 1)),
    ("open: 255 open changes of one cell", |script| open_changes(script, 255, 1)),
    ("open: 1,023 open changes of one cell", |script| open_changes(script, 1_023, 1)),
    ("open: 2,047 open changes of one cell", |script| open_changes(script, 2_047, 1)),
    ("open: 1,023 open changes of 64 cells", |script| open_changes(script, 1_023, 64)),
    ("open: 2,047 open changes of 64 cells", |script| open_changes(script, 2_047, 64)),
    ("open: 3,072 rows, 1,024 to write", |script| open_long(script, 3_072)),
    ("open: 3,840 rows, 256 to write", |script| open_long(script, 3_840)),
    ("open: 16 visits, many hand-overs", open_handed_round),
    ("open: 3,840 rows, hand-overs of one cell", open_handed_to_and_fro),
    ("open: 2,047 changes undone, of 64 cells", open_undone),
    ("commit, power fails in its force", cut_commit),
    ("open: power fails in its undo rows", cut_open),
    ("open: rejected for its last row", bad_row),
    ("open: rejected for a rule in its last row", broken_rule),
    ("open: rejected for its last page", bad_page),
    ("a page alone: 4,096 committed rows", page_alone),
];

/// What a workload does, in order.
pub struct Script {
    pub batches: Vec<Batch>,
    /// The number that the measured calls answer: 0, or that of their refusal. All others answer 0.
    pub number: u8,
}

/// Calls up to the next that is measured, or is not.
pub struct Batch {
    pub measured: bool,
    pub calls: Vec<Call>,
}

impl Script {
    /// The script of a workload: its calls on a new store, and in the end a read of every cell.
    pub fn of(workload: Workload) -> Script {
        let mut script = Script { batches: Vec::new(), number: 0 };
        script.prepare([Format, Open]);
        workload(&mut script);
        script.prepare((0..CELLS).map(|cell| Read(cell as u8)));
        script
    }

    /// How many calls there are.
    pub fn calls(&self) -> usize {
        self.batches.iter().map(|batch| batch.calls.len()).sum()
    }

    /// How many of them are measured.
    pub fn measured(&self) -> usize {
        self.batches.iter().filter(|batch| batch.measured).map(|batch| batch.calls.len()).sum()
    }

    fn add(&mut self, measured: bool, calls: impl IntoIterator<Item = Call>) {
        match self.batches.last_mut() {
            Some(batch) if batch.measured == measured => batch.calls.extend(calls),
            _ => self.batches.push(Batch { measured, calls: calls.into_iter().collect() }),
        }
    }

    fn prepare(&mut self, calls: impl IntoIterator<Item = Call>) {
        self.add(false, calls);
    }

    fn measure(&mut self, calls: impl IntoIterator<Item = Call>) {
        self.add(true, calls);
    }
}

fn format(script: &mut Script) {
    script.measure([Format; 4]);
    script.prepare([Open]);
}

fn read(script: &mut Script) {
    script.measure((0..10).flat_map(|_| (0..224).map(Read)));
}

fn begin(script: &mut Script) {
    for round in 0..16 {
        script.measure([Begin; 15]);
        script.prepare((1..=15).map(|i| Commit(15 * round + i)));
    }
}

fn change_new_scope(script: &mut Script) {
    for visit in 1..=50 {
        script.prepare([Begin]);
        script.measure((0..64).map(|cell| Change(visit, cell, 5)));
        script.prepare([Commit(visit)]);
    }
}

fn change_in_scope(script: &mut Script) {
    script.prepare([Begin]);
    script.prepare(changes_of(8, 8));
    script.measure(changes_of(1_600, 8));
}

fn hand_over(script: &mut Script) {
    script.prepare([Begin, Begin]);
    script.prepare(changes_of(8, 8));
    for _ in 0..100 {
        script.measure((0..8).map(|cell| HandOver(1, 2, cell)));
        script.measure((0..8).map(|cell| HandOver(2, 1, cell)));
    }
}

fn hand_over_all(script: &mut Script) {
    script.prepare([Begin, Begin]);
    script.prepare(changes_of(8, 8));
    for _ in 0..800 {
        script.measure([HandOverAll(1, 2), HandOverAll(2, 1)]);
    }
}

/// Visits of one change, and the call that ends them.
fn ends(script: &mut Script, end: fn(u16) -> Call) {
    for visit in 1..=250 {
        script.prepare([Begin, Change(visit, 3, 7)]);
        script.measure([end(visit)]);
    }
}

fn force(script: &mut Script) {
    script.prepare([Begin]);
    for _ in 0..25 {
        script.prepare(changes_of(64, 8));
        script.measure([Force]);
    }
}

fn flush(script: &mut Script) {
    script.prepare([Begin]);
    script.prepare(changes_of(64, 64));
    script.prepare([Force]);
    script.measure((0..100).flat_map(|_| (0..32).map(Flush)));
}

fn refused_change(script: &mut Script) {
    script.number = 9;
    script.measure((0..2_000).map(|i| Change(9, (i % 224) as u8, 1)));
}

/// Each visit makes ten changes and hands two cells over to the visit before it, which then commits.
fn visits(script: &mut Script) {
    script.prepare([Begin]);
    for visit in 2..=101u16 {
        let cell = |i| ((visit + i) % 200) as u8;
        let before = visit - 1;
        script.measure([Begin]);
        script.measure((0..10).map(|i| Change(visit, cell(i), 250 - visit as i16)));
        script.measure([0, 1].map(|i| HandOver(visit, before, cell(i))));
        script.measure([Commit(before)]);
    }
}

fn long_abort(script: &mut Script, cells: u16) {
    script.prepare([Begin]);
    script.prepare(changes_of(2_047, cells));
    script.measure([Abort(1)]);
}

fn open_committed(script: &mut Script) {
    committed(script);
    script.measure([Open]);
}

/// A full log: 61 visits of 64 changes, and visits of none, which need no room for undo rows.
fn committed(script: &mut Script) {
    for visit in 1..=61 {
        script.prepare([Begin]);
        script.prepare((0..64).map(|cell| Change(visit, cell, 11)));
        script.prepare([Commit(visit)]);
    }
    for visit in 62..=96 {
        script.prepare([Begin, Commit(visit)]);
    }
}

fn open_changes(script: &mut Script, changes: u16, cells: u16) {
    script.prepare([Begin]);
    script.prepare(changes_of(changes, cells));
    script.prepare([Force]);
    script.measure([Open]);
}

/// A log of so many rows, above 2,048, whose opening writes as many as are left: visits of 62 changes that
/// commit, and one with as many changes as there is room for.
fn open_long(script: &mut Script, rows: u16) {
    let left = 4_096 - rows;
    let visits = (rows - left) / 64;
    for visit in 1..=visits {
        script.prepare([Begin]);
        script.prepare((0..62).map(|cell| Change(visit, cell, 100)));
        script.prepare([Commit(visit)]);
    }
    script.prepare([Begin]);
    script.prepare((1..left).map(|_| Change(visits + 1, 0, 100)));
    script.prepare([Force]);
    script.measure([Open]);
}

/// Sixteen visits, each of which hands its changes of a cell to the next, until all scopes are in use.
fn open_handed_round(script: &mut Script) {
    script.prepare([Begin; 16]);
    for round in 1..=4 {
        for visit in 1..=16 {
            let cell = (visit % 4) as u8;
            script.prepare([Change(visit, cell, round), HandOver(visit, visit % 16 + 1, cell)]);
        }
    }
    script.prepare([Force]);
    script.measure([Open]);
}

/// Two visits that hand the one change to and fro: a log of 3,840 rows, of which three are no hand-overs.
fn open_handed_to_and_fro(script: &mut Script) {
    script.prepare([Begin, Begin, Change(1, 0, 100)]);
    script.prepare((3..3_840).map(|row| match row % 2 {
        1 => HandOver(1, 2, 0),
        _ => HandOver(2, 1, 0),
    }));
    script.prepare([Force]);
    script.measure([Open]);
}

fn open_undone(script: &mut Script) {
    script.prepare([Begin]);
    script.prepare(changes_of(2_047, 64));
    script.prepare([Abort(1), Force]);
    script.measure([Open]);
}

/// Commits that have 64 rows to store and power for half of them. What landed is undone by the next opening.
fn cut_commit(script: &mut Script) {
    script.number = 5;
    for visit in 1..=20 {
        // The begin stores its row.
        script.prepare([Open, OpenWith(1 + 32), Begin]);
        script.prepare((0..63).map(|cell| Change(visit, cell, 5)));
        script.measure([Commit(visit)]);
    }
    script.prepare([Open]);
}

/// Openings that have up to 2,048 rows to store and power for 600.
fn cut_open(script: &mut Script) {
    script.number = 5;
    script.prepare([Begin]);
    script.prepare(changes_of(2_047, 64));
    script.prepare([Force]);
    script.measure([OpenWith(600); 3]);
    script.prepare([Open]);
}

/// A full log, of which the last byte is not as it should be.
fn bad_row(script: &mut Script) {
    script.number = 3;
    committed(script);
    script.prepare([WriteLog(65_535, 1)]);
    script.measure([Open; 3]);
    script.prepare([WriteLog(65_535, 0), Open]);
}

/// A full log, of which the last row commits a visit that has not begun.
fn broken_rule(script: &mut Script) {
    script.number = 16;
    committed(script);
    script.prepare([WriteLog(65_521, 97)]);
    script.measure([Open; 3]);
    script.prepare([WriteLog(65_521, 96), Open]);
}

/// A full log, and byte 2 of page 31 not as it should be.
fn bad_page(script: &mut Script) {
    script.number = 4;
    committed(script);
    script.prepare([WriteCharts(31 * 32 + 2, 1)]);
    script.measure([Open; 3]);
    script.prepare([WriteCharts(31 * 32 + 2, 0), Open]);
}

/// The 32 pages, of which the first ten have rows above their marks.
fn page_alone(script: &mut Script) {
    committed(script);
    script.measure((0..32).map(RedoPage));
}

/// Changes by visit 1, of so many cells in turn.
fn changes_of(changes: u16, cells: u16) -> impl Iterator<Item = Call> {
    (0..changes).map(move |i| Change(1, (i % cells) as u8, 100))
}
