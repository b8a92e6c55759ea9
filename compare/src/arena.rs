//! One case: all stores take the same steps, and after each of them their answers, logs, charts,
//! copies, scopes and states are compared with the paper's.

mod careless;
pub mod cost;
mod endings;
mod memory;
mod pages;
mod power;

use crate::cover::{number_of, Cover};
use crate::demands::Demands;
use crate::observe::begins::SinceBegin;
use crate::observe::conditions::{self, Conditions};
use crate::observe::openings::Opening;
use crate::observe::{self, Moment};
use crate::paper::{rows_of, Ledger, Paper};
use crate::report;
use crate::steps::{place, Step};
use crate::store::{Answer, Call, Lengths, Scope, Store, Writes, RIGHT};
use memory::{Leaves, Memory};
use power::Session;
use std::cell::Cell;
use std::panic::{self, catch_unwind, AssertUnwindSafe};

/// Makes a store of an implementation that is compared with the paper.
pub type Maker = fn() -> Box<dyn Store>;

/// What went wrong, at which step.
#[derive(Debug)]
pub struct Difference {
    pub step: usize,
    pub text: String,
}

pub type Outcome<T> = Result<T, Difference>;

/// What a step gives: its answer, and the paper's copy after an opening that is ready.
#[derive(Clone, PartialEq, Debug)]
pub struct StepResult {
    pub answer: Answer,
    pub copy: Option<Vec<u8>>,
}

pub struct Arena<'a> {
    pub paper: Paper,
    others: Vec<Box<dyn Store>>,
    /// Whether the host has kept to 01 since the last opening or format: each call gets what the call
    /// before it left. If not, only an opening or a format is compared.
    sound: bool,
    /// Set for a formatted store whose memory nobody else writes.
    demands: Option<Demands>,
    /// The session that runs, while the host keeps to 01.
    session: Option<Session>,
    since_begin: SinceBegin,
    lent: Lengths,
    moment: Moment,
    steps: Vec<Step>,
    results: Vec<StepResult>,
    calls: u64,
    cover: &'a mut Cover,
}

/// The answer of a step that calls nothing, or of a call that is left out.
const NO_CALL: Answer = Answer { number: 0, value: 0, writes: Writes::NONE };

impl<'a> Arena<'a> {
    pub fn new(makers: &[Maker], cover: &'a mut Cover) -> Arena<'a> {
        let others: Vec<Box<dyn Store>> = makers.iter().map(|make| make()).collect();
        for other in &others {
            cover.store(other.name());
        }
        Arena {
            paper: Paper::new(),
            others,
            sound: true,
            demands: Some(Demands::new(&[0; 224])),
            session: None,
            since_begin: SinceBegin::default(),
            lent: RIGHT,
            moment: Moment::default(),
            steps: Vec::new(),
            results: Vec::new(),
            calls: 0,
            cover,
        }
    }

    /// The rows of the paper's log and tail; no rows if it is closed.
    pub fn ledger(&self) -> &Ledger {
        &self.moment.ledger
    }

    pub fn is_open(&self) -> bool {
        self.paper.open
    }

    pub fn calls(&self) -> u64 {
        self.calls
    }

    pub fn into_steps(self) -> Vec<Step> {
        self.steps
    }

    /// What each of the steps gave.
    pub fn results(&self) -> &[StepResult] {
        &self.results
    }

    pub fn cover(&mut self) -> &mut Cover {
        self.cover
    }

    /// A difference at the present step.
    pub fn differs<T>(&self, text: impl Into<String>) -> Outcome<T> {
        Err(Difference { step: self.steps.len(), text: text.into() })
    }

    pub fn steps(&mut self, steps: &[Step]) -> Outcome<()> {
        for step in steps {
            self.step(step.clone())?;
        }
        Ok(())
    }

    /// Takes the step and expects this number and value.
    pub fn expect(&mut self, step: Step, number: u8, value: i64) -> Outcome<()> {
        let answer = self.step(step)?;
        if (answer.number, answer.value) != (number, value) {
            let answer = report::answer(answer);
            return self
                .differs(format!("the documents have {number} {value}, the stores answer {answer}"));
        }
        Ok(())
    }

    /// Takes the step and expects this answer, as a run file's line has it: number, value, rows, pages.
    pub fn expect_line(&mut self, step: Step, expected: &str) -> Outcome<()> {
        let answer = report::answer(self.step(step)?);
        if answer != expected {
            return self.differs(format!("the documents have {expected}, the stores answer {answer}"));
        }
        Ok(())
    }

    /// Takes one step with all stores; gives the answer.
    pub fn step(&mut self, step: Step) -> Outcome<Answer> {
        self.steps.push(step.clone());
        let opens = matches!(step, Step::Open(_));
        let answer = self.take(step)?;
        let copy = (opens && answer.number == 0).then(|| self.paper.copy.clone());
        self.results.push(StepResult { answer, copy });
        Ok(answer)
    }

    fn take(&mut self, step: Step) -> Outcome<Answer> {
        match step {
            Step::Format(cells) => self.format(&cells),
            Step::Open(fuse) => self.open(fuse),
            Step::Call(call) if self.sound => self.call(call),
            Step::Call(_) => Ok(NO_CALL),
            Step::Lend(buffer, length) => {
                self.lent.set(buffer, length);
                self.for_all(|store| store.lend(buffer, length));
                Ok(NO_CALL)
            }
            Step::Scramble(seed) => {
                self.host_alters();
                self.for_all(|store| store.scramble(seed));
                Ok(NO_CALL)
            }
            Step::WriteLog(rows) => {
                self.host_writes(|store| {
                    let log = store.log_mut();
                    log.fill(0);
                    for (row, bytes) in log.chunks_exact_mut(16).zip(&rows) {
                        row.copy_from_slice(bytes);
                    }
                });
                Ok(NO_CALL)
            }
            Step::WriteLogByte(at, byte) => {
                self.host_writes(|store| store.log_mut()[at] = byte);
                Ok(NO_CALL)
            }
            Step::WriteCharts(at, bytes) => {
                self.host_writes(|store| {
                    store.charts_mut()[at..at + bytes.len()].copy_from_slice(&bytes)
                });
                Ok(NO_CALL)
            }
            Step::RedoPages(pages) => {
                self.redo_pages(&pages)?;
                Ok(NO_CALL)
            }
            Step::RedoLent { log, page, number } => self.redo_lent(log, page, number),
            Step::Garbage(seed, calls) => {
                self.careless_host(seed, &calls)?;
                Ok(NO_CALL)
            }
        }
    }

    fn for_all(&mut self, act: impl Fn(&mut dyn Store)) {
        act(&mut self.paper);
        for other in &mut self.others {
            act(other.as_mut());
        }
    }

    /// The host does not keep to 01: what follows is no part of the session.
    fn host_alters(&mut self) {
        self.sound = false;
        self.session = None;
    }

    fn host_writes(&mut self, write: impl Fn(&mut dyn Store)) {
        self.host_alters();
        self.demands = None;
        self.for_all(write);
    }

    fn format(&mut self, cells: &[i32]) -> Outcome<Answer> {
        let (lent, sound) = (self.lent, self.sound);
        let stored = self.paper.stored_rows();
        let leaves = |number| if number == 0 { Leaves::FORMATTED } else { Leaves::REFUSED };
        let answer = self.compared(|store| store.format(cells), leaves)?;
        self.first_condition("format", &conditions::of_format(cells, lent), answer)?;
        observe::format(self.cover, cells, lent, sound, answer, stored);
        if answer.number == 0 {
            self.sound = true;
            self.demands = Some(Demands::new(cells));
            self.session = None;
            self.since_begin = SinceBegin::default();
        }
        self.after()?;
        // "A format's are zero."
        self.powered(power::counted(answer.writes, 0, 0))?;
        Ok(answer)
    }

    fn open(&mut self, fuse: Option<u32>) -> Outcome<Answer> {
        let (lent, sound) = (self.lent, self.sound);
        let stored = self.paper.stored_rows();
        let leaves = |number| match number {
            0 => Leaves::OPENED,
            1 => Leaves::REFUSED,
            5 => Leaves::CUT,
            _ => Leaves::REJECTED,
        };
        let answer = self.compared(|store| store.open(fuse), leaves)?;
        self.sound |= answer.number != 1;
        let before = self.after()?;
        self.powered(power::counted(answer.writes, self.moment.stored - stored, 0))?;
        if let 1 | 3 | 16 | 17 | 4 = answer.number {
            let holding = conditions::of_opening(lent, &self.paper.log, &self.paper.charts, fuse);
            self.first_condition("open", &holding, answer)?;
        } else {
            self.powered(power::judge(fuse, answer, self.paper.fuse))?;
            self.powered(cost::judge(&rows_of(&self.paper.log)[..stored], answer))?;
        }
        self.session_at(fuse, stored, before.open, answer)?;
        let opening = Opening {
            lent,
            sound,
            fuse,
            answer,
            before: &before,
            stored,
            log: &self.paper.log,
            charts: &self.paper.charts,
        };
        observe::openings::open(self.cover, &opening);
        if answer.number == 0 {
            self.since_begin.opened(&self.paper.log, stored);
        }
        if let Some(demands) = &self.demands {
            // "An opening whose lent buffers have 01's lengths and whose power holds ends ready."
            let kept = match answer.number {
                0 => demands.after_ready(&self.paper.log, &self.paper.copy),
                1 if lent != RIGHT => Ok(()),
                5 if fuse.is_some() => Ok(()),
                number => Err(format!("the opening answers {number}")),
            };
            self.demanded(kept)?;
        }
        Ok(answer)
    }

    fn call(&mut self, call: Call) -> Outcome<Answer> {
        let lent = self.lent;
        let was_open = self.paper.open;
        let leaves = |number| match number {
            0 => Leaves::done(call),
            5 if was_open => Leaves::CUT,
            _ => Leaves::REFUSED,
        };
        let answer = self.compared(|store| store.call(call), leaves)?;
        let before = self.after()?;
        let holding = conditions::of_call(call, lent, &before, &self.paper.log);
        self.first_condition(place(call), &holding, answer)?;
        let page = matches!(call, Call::FlushPage { .. }) && answer.number == 0;
        let rows = self.moment.stored - before.stored;
        self.powered(power::counted(answer.writes, rows, usize::from(page)))?;
        if was_open {
            self.powered(power::judge(before.fuse, answer, self.paper.fuse))?;
        }
        self.add_to_session(answer)?;
        observe::call(self.cover, call, lent, answer, &before, &self.moment);
        self.since_begin.call(self.cover, call, answer, &before);
        if let (Call::Commit { visit }, 0, Some(demands)) = (call, answer.number, &mut self.demands) {
            let held = before.ledger.changes.iter().filter(|change| change.holder == visit);
            let rows: Vec<u16> = held.map(|change| change.row).collect();
            let kept = demands.after_commit(&self.paper.log, visit, answer.value, &rows);
            self.demanded(kept)?;
        }
        if let (Call::Begin, 0, Some(demands)) = (call, answer.number, &mut self.demands) {
            let kept = demands.after_begin(&self.paper.log, answer.value);
            self.demanded(kept)?;
        }
        Ok(answer)
    }

    /// Of the conditions of 01's table that hold the first gives the number. Where none holds the call is
    /// done, or power fails in it.
    fn first_condition(
        &mut self,
        place: &'static str,
        holding: &Conditions,
        answer: Answer,
    ) -> Outcome<()> {
        self.cover.conditions(place, holding);
        let number = holding.first().and_then(|label| number_of(label)).unwrap_or(0);
        if answer.number == number || (number == 0 && answer.number == 5) {
            return Ok(());
        }
        let answer = report::answer(answer);
        self.differs(format!("{place} is refused by {number} first, the stores answer {answer}"))
    }

    fn powered(&self, power: Result<(), String>) -> Outcome<()> {
        power.or_else(|text| self.differs(format!("stored writes: {text}")))
    }

    /// An opening that found so many rows has answered: another session begins, or the last one goes on.
    /// `open` says whether the store was open before it.
    fn session_at(
        &mut self,
        fuse: Option<u32>,
        stored: usize,
        open: bool,
        answer: Answer,
    ) -> Outcome<()> {
        if answer.number == 1 {
            self.session.iter_mut().for_each(Session::resume);
        } else if let Some(session) = self.session.take() {
            session.end(self.cover, open);
        }
        if let 0 | 5 = answer.number {
            self.session = Some(Session::new(fuse, stored));
        }
        self.add_to_session(answer)
    }

    /// An opening or a call of the session that runs has answered.
    fn add_to_session(&mut self, answer: Answer) -> Outcome<()> {
        let Some(session) = &mut self.session else {
            return Ok(());
        };
        session.add(answer.writes);
        let summed = session.judge(self.moment.stored, self.paper.open, self.paper.fuse);
        self.powered(summed)
    }

    /// After a format, an opening or a call: the rest of the comparison, and a new look at the paper's
    /// store. Gives what it was before.
    fn after(&mut self) -> Outcome<Moment> {
        self.calls += 1;
        self.lent = RIGHT;
        let moment = self.look();
        let before = std::mem::replace(&mut self.moment, moment);
        if self.sound {
            self.compare_scopes()?;
            self.compare_states()?;
        }
        if let Some(demands) = &mut self.demands {
            let kept = demands.after_call(&self.paper.log);
            self.demanded(kept)?;
        }
        Ok(before)
    }

    fn look(&self) -> Moment {
        let stored = self.paper.stored_rows();
        if !self.sound || !self.paper.open {
            return Moment { stored, ..Moment::default() };
        }
        let ledger = self.ledger_now();
        let scopes = if ledger.rows == self.moment.ledger.rows {
            self.moment.scopes.clone()
        } else {
            ledger.scopes()
        };
        let waiting = self.paper.tail.len();
        Moment { open: true, fuse: self.paper.fuse, stored, waiting, ledger, scopes }
    }

    /// The paper's ledger. Where rows were only added since the last look, they are added here too.
    fn ledger_now(&self) -> Ledger {
        let rows = self.paper.rows();
        let before = &self.moment.ledger;
        match rows.strip_prefix(before.rows.as_slice()) {
            Some(new) => {
                let mut ledger = before.clone();
                new.iter().for_each(|row| ledger.add(*row));
                ledger
            }
            None => Ledger::of(&rows),
        }
    }

    fn demanded(&self, kept: Result<(), String>) -> Outcome<()> {
        kept.or_else(|text| self.differs(format!("demand 3 or L4 is not met: {text}")))
    }

    /// Lets every store make the call and compares answers and bytes. `leaves` says what an answer's number
    /// leaves of a store. Log and charts are those of the paper in every store, before and after the call.
    fn compared(
        &mut self,
        call: impl Fn(&mut dyn Store) -> Answer,
        leaves: impl Fn(u8) -> Leaves,
    ) -> Outcome<Answer> {
        let step = self.steps.len();
        let before = Memory::of(&self.paper);
        let expected = guarded(step, &mut self.paper, &call)?;
        let leaves = leaves(expected.number);
        if let Err(text) = leaves.judge(&before, &Memory::of(&self.paper)) {
            let answer = report::answer(expected);
            return self.differs(format!("paper answers {answer}, and {text}"));
        }
        for other in &mut self.others {
            let before = other.ram();
            let answer = guarded(step, other.as_mut(), &call)?;
            let name = other.name();
            if answer != expected {
                let (expected, answer) = (report::answer(expected), report::answer(answer));
                return self.differs(format!("paper answers {expected}, {name} {answer}"));
            }
            if let Err(text) = leaves.judge_ram(&before, &other.ram()) {
                let answer = report::answer(answer);
                return self.differs(format!("{name} answers {answer}, and {text}"));
            }
        }
        self.compare_bytes()?;
        Ok(expected)
    }

    fn compare_bytes(&self) -> Outcome<()> {
        let ours: [(&str, usize, &[u8]); 3] = [
            ("log, row", 16, &self.paper.log),
            ("charts, page", 32, &self.paper.charts),
            ("copy, page", 32, &self.paper.copy),
        ];
        for other in &self.others {
            let theirs = [other.log(), other.charts(), other.copy()];
            for ((area, size, our), their) in ours.into_iter().zip(theirs) {
                if our == their {
                    continue;
                }
                let at = (0..our.len()).find(|at| our.get(*at) != their.get(*at)).unwrap_or(our.len());
                let first = if size == 16 { 1 } else { 0 };
                let place = format!("{area} {}, byte {}", at / size + first, at % size);
                let (our, their) = (report::byte(our.get(at)), report::byte(their.get(at)));
                return self.differs(format!("{place}: paper has {our}, {} {their}", other.name()));
            }
        }
        Ok(())
    }

    /// "Which entry holds which scope" is free, so the entries in use are compared as a set.
    fn compare_scopes(&self) -> Outcome<()> {
        for other in &self.others {
            let mut scopes = other.scopes();
            scopes.retain(|scope| *scope != Scope::default());
            scopes.sort_by_key(|scope| scope.first);
            if scopes != self.moment.scopes {
                let ours = &self.moment.scopes;
                let at = (0..).find(|at| ours.get(*at) != scopes.get(*at)).unwrap_or(0);
                let (our, their) = (report::scope(ours.get(at)), report::scope(scopes.get(at)));
                let name = other.name();
                return self.differs(format!("scopes: paper has {our}; {name} has {their}"));
            }
        }
        Ok(())
    }

    /// A state is what the rows of log and tail say, and the fuse.
    fn compare_states(&self) -> Outcome<()> {
        let Moment { ledger, scopes, .. } = &self.moment;
        let our = self.paper.state_by(ledger, scopes.len());
        for other in &self.others {
            let their = other.state();
            if our != their {
                let parts = report::states(&our, &their);
                return self.differs(format!("state of paper and of {}: {parts}", other.name()));
            }
        }
        Ok(())
    }
}

thread_local! {
    static STORE_RUNS: Cell<bool> = const { Cell::new(false) };
}

/// Lets a store make a call. A store that panics is a difference, not the end of the comparison.
fn guarded(
    step: usize,
    store: &mut dyn Store,
    call: &dyn Fn(&mut dyn Store) -> Answer,
) -> Outcome<Answer> {
    let name = store.name();
    STORE_RUNS.set(true);
    let result = catch_unwind(AssertUnwindSafe(|| call(store)));
    STORE_RUNS.set(false);
    result.map_err(|_| Difference { step, text: format!("{name} panics") })
}

/// From here on a panic of a store prints nothing: it is reported as a difference.
pub fn hush_stores() {
    let print = panic::take_hook();
    panic::set_hook(Box::new(move |info| {
        if !STORE_RUNS.get() {
            print(info);
        }
    }));
}
