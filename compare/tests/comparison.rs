//! The comparison itself: it finds a store that is wrong, and the definitions that it rests on.

use compare::adapters::FastStore;
use compare::arena::{cost, Arena, Maker};
use compare::bench::{Bench, Failure};
use compare::cases::sessions::{habits, next_call, Habits};
use compare::cases::{garbage, pages_alone, rejected_logs, sessions};
use compare::cover::Cover;
use compare::paper::{get_cell, Ledger, Paper, Row};
use compare::paper::{ABORT, BEGIN, CHANGE, COMMIT, HAND_OVER, HAND_OVER_ALL, UNDO};
use compare::prng::Rng;
use compare::shrink::shrink;
use compare::steps::{begin, change, open, read, Step};
use compare::store::{Answer, Buffer, Call, Scope, State, Store, Writes};
use std::time::Duration;

/// What is wrong with a store.
#[derive(Clone, Copy, PartialEq)]
enum Fault {
    /// It reads 1 g too much of a cell that weighs something.
    Read,
    /// Its fuse has one write too many.
    Fuse,
    /// It leaves a byte in RAM when power fails in a call.
    Ram,
    /// It moves a byte of RAM when it refuses a call by 9.
    Refusal,
    /// It stores the rows that wait when it refuses a begin.
    RefusedBegin,
    /// It answers 5 in RAM that no calls leave, with power to go on: the first active visit is 0.
    Altered,
    /// It counts the row of a change, which waits.
    Waiting,
    /// It does not count the row of a begin, which is stored.
    Begin,
    /// It counts the page of a flush in which power fails.
    Page,
    /// It counts nothing in a call in which power fails.
    Cut,
    /// It counts a row too many in RAM that no calls leave: the first active visit is 0.
    AlteredCount,
    /// It applies the row of a page's mark again when it redoes the page alone.
    Mark,
    /// It alters a page alone that it refuses.
    Lent,
    /// It goes backward from the charts as they are stored.
    Forward,
    /// It takes visits and receivers by their low bytes.
    LowByte,
    /// It answers 7 where 65,535 visits have begun.
    UsedUp,
    /// It takes a limit that a row of the log exceeds for a rule that it breaks.
    Limit,
    /// It takes a rule that a row of the log breaks for wrong bytes.
    Rule,
    /// It takes wrong bytes of a row of the log for a rule that it breaks.
    Bytes,
    /// It gives the row after the first bad one.
    BadRow,
}

/// A store with a fault.
#[derive(Clone)]
struct Wrong {
    store: FastStore,
    fault: Fault,
    /// What the fault adds to the last byte of RAM.
    byte: u8,
}

impl Wrong {
    fn boxed(fault: Fault) -> Box<dyn Store> {
        Box::new(Wrong { store: FastStore::new(), fault, byte: 0 })
    }
}

impl Store for Wrong {
    fn name(&self) -> &'static str {
        "wrong"
    }
    fn format(&mut self, cells: &[i32]) -> Answer {
        self.store.format(cells)
    }
    fn open(&mut self, fuse: Option<u32>) -> Answer {
        let more = u32::from(self.fault == Fault::Fuse);
        let mut answer = self.store.open(fuse.map(|left| left + more));
        match (self.fault, answer.number) {
            (Fault::Limit, 17) => answer.number = 16,
            (Fault::Rule, 16) => answer.number = 3,
            (Fault::Bytes, 3) => answer.number = 16,
            (Fault::BadRow, 3 | 16 | 17) => answer.value += 1,
            _ => {}
        }
        answer
    }
    fn call(&mut self, call: Call) -> Answer {
        let state = self.state();
        let altered = self.is_ready() && state.active > 0 && state.visits[0] == 0;
        if self.fault == Fault::Altered && altered {
            return Answer { number: 5, value: 0, writes: Writes::NONE };
        }
        let made = if self.fault == Fault::LowByte { by_low_bytes(call) } else { call };
        let mut answer = self.store.call(made);
        match (self.fault, call, answer.number) {
            (Fault::Waiting, Call::Change { .. }, 0) => answer.writes.rows += 1,
            (Fault::Begin, Call::Begin, 0) => answer.writes.rows -= 1,
            (Fault::Page, Call::FlushPage { .. }, 5) if state.open => answer.writes.pages += 1,
            (Fault::Cut, _, 5) => answer.writes = Writes::NONE,
            (Fault::AlteredCount, _, 0 | 5) if altered => answer.writes.rows += 1,
            (Fault::Read, Call::Read { .. }, 0) if answer.value != 0 => answer.value += 1,
            (Fault::Ram, _, 5) if state.open => self.byte = 1,
            (Fault::Refusal, _, 9) => self.byte = self.byte.wrapping_add(1),
            (Fault::UsedUp, Call::Begin, 6) => answer.number = 7,
            (Fault::RefusedBegin, Call::Begin, 6..=8) => {
                self.store.call(Call::Force);
            }
            _ => {}
        }
        answer
    }
    fn log(&self) -> &[u8] {
        self.store.log()
    }
    fn charts(&self) -> &[u8] {
        self.store.charts()
    }
    fn copy(&self) -> &[u8] {
        self.store.copy()
    }
    fn scopes(&self) -> Vec<Scope> {
        self.store.scopes()
    }
    fn state(&self) -> State {
        self.store.state()
    }
    fn ram(&self) -> Vec<u8> {
        let mut ram = self.store.ram();
        if let Some(last) = ram.last_mut() {
            *last = last.wrapping_add(self.byte);
        }
        ram
    }
    fn redo_page(&self, log: &[u8], page: &mut [u8], number: u8) -> Option<Answer> {
        if self.fault == Fault::Mark && page.len() == 32 {
            let mark = u16::from_le_bytes([page[0], page[1]]);
            page[..2].copy_from_slice(&mark.saturating_sub(1).to_le_bytes());
        }
        let answer = self.store.redo_page(log, page, number)?;
        if self.fault == Fault::Lent && answer.number != 0 {
            page.iter_mut().for_each(|byte| *byte ^= 1);
        }
        Some(answer)
    }
    fn forward(&self) -> Option<Result<Vec<u8>, Answer>> {
        let copy = self.store.forward()?;
        Some(if self.fault == Fault::Forward { copy.map(|_| self.charts().to_vec()) } else { copy })
    }
    fn is_ready(&self) -> bool {
        self.store.is_ready()
    }
    fn copied(&self) -> Box<dyn Store> {
        Box::new(self.clone())
    }
    fn set_fuse(&mut self, fuse: Option<u32>) {
        self.store.set_fuse(fuse)
    }
    fn log_mut(&mut self) -> &mut [u8] {
        self.store.log_mut()
    }
    fn charts_mut(&mut self) -> &mut [u8] {
        self.store.charts_mut()
    }
    fn lend(&mut self, buffer: Buffer, length: usize) {
        self.store.lend(buffer, length)
    }
    fn scramble(&mut self, seed: u64) {
        self.store.scramble(seed)
    }
}

/// The call with the low bytes of its visits.
fn by_low_bytes(call: Call) -> Call {
    match call {
        Call::Change { visit, cell, amount } => Call::Change { visit: visit % 256, cell, amount },
        Call::HandOver { giver, receiver, cell } => {
            Call::HandOver { giver: giver % 256, receiver: receiver % 256, cell }
        }
        Call::HandOverAll { giver, receiver } => {
            Call::HandOverAll { giver: giver % 256, receiver: receiver % 256 }
        }
        Call::Commit { visit } => Call::Commit { visit: visit % 256 },
        Call::Abort { visit } => Call::Abort { visit: visit % 256 },
        other => other,
    }
}

/// The first failure in the cases of a part, with the right store and the wrong one.
fn found(wrong: Maker, play: fn(&mut Bench, u64) -> Result<(), Failure>) -> (Vec<Maker>, Failure) {
    let makers: Vec<Maker> = vec![|| Box::new(FastStore::new()), wrong];
    let mut bench = Bench::new(makers.clone());
    let failure = (0..200).find_map(|seed| play(&mut bench, seed).err());
    let failure = failure.expect("the wrong store was not found");
    assert!(failure.difference.text.contains("wrong"), "{}", failure.difference.text);
    (makers, failure)
}

/// Plays until the store with this fault is found, by a difference whose report has this text.
fn is_found(wrong: Maker, play: fn(&mut Bench, u64) -> Result<(), Failure>, text: &str) {
    let (_, failure) = found(wrong, play);
    assert!(failure.difference.text.contains(text), "{}", failure.difference.text);
}

#[test]
fn a_wrong_store_is_found_and_the_case_is_short() {
    let (makers, failure) = found(|| Wrong::boxed(Fault::Read), sessions::play);
    let shortest = shrink(&makers, &failure.steps, Duration::from_secs(10)).unwrap();
    // An opening, a read, and before them a format or a visit's change.
    assert!(shortest.steps.len() <= 4, "{:?}", shortest.steps);
    assert!(shortest.difference.text.contains("wrong"));
}

#[test]
fn faults_in_ram_are_found() {
    is_found(|| Wrong::boxed(Fault::Fuse), sessions::play, "fuse");
    is_found(|| Wrong::boxed(Fault::Ram), sessions::play, "its RAM");
    is_found(|| Wrong::boxed(Fault::Refusal), sessions::play, "its RAM");
}

#[test]
fn a_refused_begin_that_forces_is_found() {
    is_found(|| Wrong::boxed(Fault::RefusedBegin), sessions::play, "its RAM");
}

#[test]
fn a_5_with_power_to_go_on_is_found_in_altered_ram() {
    is_found(|| Wrong::boxed(Fault::Altered), garbage::play, "altered RAM");
}

#[test]
fn visits_that_are_wrong_are_found() {
    is_found(|| Wrong::boxed(Fault::LowByte), sessions::play, "paper answers");
    is_found(|| Wrong::boxed(Fault::UsedUp), garbage::play, "65,535 visits");
}

#[test]
fn wrong_counts_are_found() {
    let wrong: [Maker; 4] = [
        || Wrong::boxed(Fault::Waiting),
        || Wrong::boxed(Fault::Begin),
        || Wrong::boxed(Fault::Page),
        || Wrong::boxed(Fault::Cut),
    ];
    for wrong in wrong {
        is_found(wrong, sessions::play, "paper answers");
    }
    is_found(|| Wrong::boxed(Fault::AlteredCount), garbage::play, "it counts");
}

#[test]
fn pages_alone_that_are_wrong_are_found() {
    is_found(|| Wrong::boxed(Fault::Mark), pages_alone::play, "pages redone alone");
    is_found(|| Wrong::boxed(Fault::Lent), pages_alone::play, "leaves other bytes");
    is_found(|| Wrong::boxed(Fault::Forward), pages_alone::play, "pages redone alone");
}

#[test]
fn openings_that_write_another_number_of_rows_are_found() {
    let rows = |kinds: &[u8]| -> Vec<Row> {
        let of_kind = |&kind: &u8| Row::read(&[kind, 1, 0, 0, 0, 0, 0, 0, 0, 0, 0, 0, 0, 0, 0, 0]);
        kinds.iter().map(of_kind).collect()
    };
    let passes = |found: &[Row], number, rows| {
        let writes = Writes { rows, pages: 0 };
        cost::judge(found, Answer { number, value: 0, writes }).is_ok()
    };
    let costliest = rows(&[BEGIN, CHANGE]);
    assert!(passes(&costliest, 0, 2) && passes(&costliest, 5, 1));
    assert!(!passes(&costliest, 0, 1) && !passes(&costliest, 0, 3) && !passes(&costliest, 5, 3));
    let kept = rows(&[BEGIN, CHANGE, COMMIT]);
    assert!(passes(&kept, 0, 0) && passes(&kept, 0, 2));
    assert!(!passes(&kept, 0, 3) && !passes(&kept, 5, 3));
    let long = rows(&[HAND_OVER; 3_072]);
    assert!(passes(&long, 0, 1_024) && !passes(&long, 0, 1_025));
}

#[test]
fn other_reasons_for_a_rejected_log_are_found() {
    is_found(|| Wrong::boxed(Fault::Limit), rejected_logs::play, "paper answers");
    is_found(|| Wrong::boxed(Fault::Rule), rejected_logs::play, "paper answers");
    is_found(|| Wrong::boxed(Fault::Bytes), rejected_logs::play, "paper answers");
    is_found(|| Wrong::boxed(Fault::BadRow), rejected_logs::play, "paper answers");
}

#[test]
fn calls_after_writes_of_the_host_are_left_out() {
    let mut cover = Cover::default();
    let makers: [Maker; 1] = [|| Box::new(FastStore::new())];
    let mut arena = Arena::new(&makers, &mut cover);
    let steps = [open(None), begin(), Step::WriteLogByte(0, 7), change(1, 0, 1), read(0)];
    arena.steps(&steps).unwrap();
    arena.expect(open(None), 16, 1).unwrap();
    arena.expect(begin(), 5, 0).unwrap();
}

/// The definitions of document 01 said once more, each by itself, over the list of rows.
mod said_again {
    use super::*;

    pub fn is_active(rows: &[Row], visit: u16) -> bool {
        let begun = rows.iter().any(|row| row.kind == BEGIN && row.visit == visit);
        let ended =
            rows.iter().any(|row| (row.kind == COMMIT || row.kind == ABORT) && row.visit == visit);
        begun && !ended
    }

    pub fn holder(rows: &[Row], change: &Row) -> u16 {
        let mut holder = change.visit;
        for row in &rows[usize::from(change.number)..] {
            let hands_over = match row.kind {
                HAND_OVER => row.cell == change.cell,
                HAND_OVER_ALL => true,
                _ => false,
            };
            if hands_over && row.visit == holder {
                holder = row.receiver;
            }
        }
        holder
    }

    /// "Unless v changed c before and has not handed c over since": until v hands c over v holds what it
    /// changed.
    pub fn starts_scope(rows: &[Row], change: &Row) -> bool {
        let before = &rows[..usize::from(change.number) - 1];
        let is_own =
            |row: &&Row| row.kind == CHANGE && row.visit == change.visit && row.cell == change.cell;
        let Some(last) = before.iter().rev().find(is_own) else {
            return true;
        };
        let mut ends = usize::from(last.number)..=before.len();
        ends.any(|end| holder(&before[..end], last) != last.visit)
    }

    pub fn is_open(rows: &[Row], change: &Row) -> bool {
        let undone = rows.iter().any(|row| row.kind == UNDO && row.undone == change.number);
        is_active(rows, holder(rows, change)) && !undone
    }
}

#[test]
fn the_ledger_is_what_the_definitions_say() {
    for seed in 0..300 {
        let rows: Vec<Row> =
            compare::cases::rows::make(seed, 120).iter().map(|bytes| Row::read(bytes)).collect();
        let ledger = Ledger::of(&rows);
        for visit in 0..=20 {
            assert_eq!(ledger.is_active(visit), said_again::is_active(&rows, visit));
        }
        let changes: Vec<&Row> = rows.iter().filter(|row| row.kind == CHANGE).collect();
        assert_eq!(changes.len(), ledger.changes.len());
        for (row, change) in changes.iter().zip(&ledger.changes) {
            assert_eq!(change.row, row.number);
            assert_eq!(change.holder, said_again::holder(&rows, row));
            assert_eq!(ledger.is_open(change), said_again::is_open(&rows, row));
            let before = Ledger::of(&rows[..usize::from(row.number) - 1]);
            let starts = before.starts_scope(row.visit, row.cell);
            assert_eq!(starts, said_again::starts_scope(&rows, row));
        }
        assert_eq!(ledger.scopes().len(), ledger.scopes_in_use());
        let in_scopes: usize = ledger.scopes().iter().map(|scope| usize::from(scope.count)).sum();
        assert_eq!(in_scopes, ledger.open_changes().count());
    }
}

/// What the rows come to, but for their numbers: the cells, the active visits, and the scopes.
fn meaning(store: &Paper) -> (Vec<i32>, Vec<u16>, Vec<Scope>) {
    let ledger = store.ledger();
    let cells = (0..224).map(|cell| get_cell(&store.copy, cell)).collect();
    let unnumbered = |scope: &Scope| Scope { first: 0, last: 0, ..*scope };
    let scopes = ledger.scopes().iter().map(unnumbered).collect();
    (cells, ledger.active, scopes)
}

/// 02, L2: "Row rules, scopes and the sum over last holders then count kind 7 as all those single
/// hand-overs." One store hands whole visits over, the other each of their cells.
#[test]
fn a_whole_visit_is_all_its_single_hand_overs() {
    // Whole visits of two or more cells that were handed over. With one cell there is little to show.
    let mut handed_over = 0;
    for seed in 0..200 {
        let rng = &mut Rng::new(seed);
        let visits = rng.pick(&[2, 3, 5, 16]);
        let cells = (0..rng.pick(&[2, 3, 12, 70])).collect();
        // Few visits end, so that they come to hold several cells.
        let weights = [8, 40, 8, 8, 2, 2, 1, 1, 1];
        let habits = Habits { visits, cells, weights, ..habits(rng) };
        let (mut whole, mut single) = (Paper::new(), Paper::new());
        whole.open(None).ok().unwrap();
        single.open(None).ok().unwrap();
        for _ in 0..150 {
            let call = next_call(rng, &habits, &whole.ledger());
            let calls = match call {
                Call::HandOverAll { giver, receiver } => singles(&whole.ledger(), giver, receiver),
                other => vec![other],
            };
            let number = whole.call(call).number;
            handed_over += usize::from(number == 0 && calls.len() > 1);
            for one in calls {
                assert_eq!(single.call(one).number, number, "seed {seed}, {call:?} by {one:?}");
            }
            assert_eq!(meaning(&whole), meaning(&single), "seed {seed}, {call:?}");
        }
        // Rows that wait are lost, and those of one store are more than those of the other.
        for store in [&mut whole, &mut single] {
            store.force().ok().unwrap();
        }
        assert_eq!(whole.open(None).ok(), single.open(None).ok(), "seed {seed}");
        assert_eq!(meaning(&whole), meaning(&single), "seed {seed}, opened");
    }
    assert!(handed_over >= 560, "{handed_over} whole visits of several cells");
}

/// A hand-over of every cell that the giver holds, or of any cell where it holds none.
fn singles(ledger: &Ledger, giver: u16, receiver: u16) -> Vec<Call> {
    let mut cells = ledger.cells_held(giver);
    if cells.is_empty() {
        cells.push(0);
    }
    cells.into_iter().map(|cell| Call::HandOver { giver, receiver, cell }).collect()
}
