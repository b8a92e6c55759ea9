//! The two implementations as `Store`s.

use crate::fast::{self, Fuse, Lent, Phase, Ram};
use crate::paper::{Ledger, Paper, Row};
use crate::prng::Rng;
use crate::store::{noise, take_over, with_length};
use crate::store::{Answer, Buffer, Call, Host, Scope, State, Store, RIGHT, ROW, ROWS};

impl Paper {
    /// The state of a store that has these rows in log and tail, and so many scopes in use.
    pub fn state_by(&self, ledger: &Ledger, used: usize) -> State {
        if !self.open {
            return State::CLOSED;
        }
        let mut state = State {
            open: true,
            fuse: self.fuse,
            stored: ledger.rows.len() - self.tail.len(),
            waiting: self.tail.len(),
            begun: ledger.begin_rows(),
            active: ledger.active.len(),
            used,
            ..State::CLOSED
        };
        state.visits[..state.active].copy_from_slice(&ledger.active);
        for (bytes, row) in state.tail.chunks_exact_mut(ROW).zip(&self.tail) {
            bytes.copy_from_slice(&row.bytes());
        }
        state
    }
}

impl Store for Paper {
    fn name(&self) -> &'static str {
        "paper"
    }

    fn format(&mut self, cells: &[i32]) -> Answer {
        let outcome = Paper::format(self, cells);
        self.lent = RIGHT;
        self.answer(outcome)
    }

    fn open(&mut self, fuse: Option<u32>) -> Answer {
        let outcome = Paper::open(self, fuse);
        self.lent = RIGHT;
        self.answer(outcome)
    }

    fn call(&mut self, call: Call) -> Answer {
        let outcome = match call {
            Call::Begin => self.begin(),
            Call::Change { visit, cell, amount } => self.change(visit, cell, amount),
            Call::HandOver { giver, receiver, cell } => self.hand_over(giver, receiver, cell),
            Call::HandOverAll { giver, receiver } => self.hand_over_all(giver, receiver),
            Call::Commit { visit } => self.commit(visit),
            Call::Abort { visit } => self.abort(visit),
            Call::Force => self.force(),
            Call::FlushPage { page } => self.flush_page(page),
            Call::Read { cell } => self.read(cell),
        };
        self.lent = RIGHT;
        self.answer(outcome)
    }

    fn log(&self) -> &[u8] {
        &self.log
    }

    fn charts(&self) -> &[u8] {
        &self.charts
    }

    fn copy(&self) -> &[u8] {
        &self.copy
    }

    fn scopes(&self) -> Vec<Scope> {
        if self.open {
            self.ledger().scopes()
        } else {
            Vec::new()
        }
    }

    fn state(&self) -> State {
        let ledger = self.ledger();
        self.state_by(&ledger, ledger.scopes_in_use())
    }

    fn ram(&self) -> Vec<u8> {
        let mut ram = vec![u8::from(self.open), u8::from(self.fuse.is_some()), self.tail.len() as u8];
        ram.extend(self.fuse.unwrap_or(0).to_le_bytes());
        ram.extend(&self.copy);
        ram.extend(self.tail.iter().flat_map(|row| row.bytes()));
        ram
    }

    fn copied(&self) -> Box<dyn Store> {
        Box::new(self.clone())
    }

    fn set_fuse(&mut self, fuse: Option<u32>) {
        self.fuse = fuse;
    }

    fn log_mut(&mut self) -> &mut [u8] {
        &mut self.log
    }

    fn charts_mut(&mut self) -> &mut [u8] {
        &mut self.charts
    }

    fn lend(&mut self, buffer: Buffer, length: usize) {
        self.lent.set(buffer, length);
    }

    fn scramble(&mut self, seed: u64) {
        noise(seed, &mut self.copy);
        let mut rng = Rng::new(seed ^ 1);
        let mut bytes = [0; 16];
        self.tail.clear();
        for _ in 0..rng.below(65) {
            rng.fill(&mut bytes);
            self.tail.push(Row::read(&bytes));
        }
        self.fuse = Some(rng.below(100) as u32);
        self.open = rng.chance(1, 2);
    }
}

#[derive(Clone)]
pub struct FastStore {
    host: Host,
    scopes: Vec<Scope>,
    ram: Ram,
}

impl FastStore {
    pub fn new() -> FastStore {
        FastStore { host: Host::new(), scopes: vec![Scope::default(); RIGHT.scopes], ram: Ram::CLOSED }
    }

    /// Makes one call with the buffers lent as the host was told.
    fn with_lent<T>(&mut self, call: impl FnOnce(&mut Ram, &mut Lent) -> T) -> T {
        let (ram, table) = (&mut self.ram, &mut self.scopes);
        self.host.lend(|log, charts, copy, entries| {
            let mut scopes = with_length(table, entries);
            let result = call(ram, &mut Lent::new(log, charts, copy, &mut scopes));
            take_over(table, &scopes);
            result
        })
    }
}

impl Default for FastStore {
    fn default() -> FastStore {
        FastStore::new()
    }
}

impl Store for FastStore {
    fn name(&self) -> &'static str {
        "fast"
    }

    fn format(&mut self, cells: &[i32]) -> Answer {
        self.with_lent(|ram, lent| fast::format(ram, lent, cells))
    }

    fn open(&mut self, fuse: Option<u32>) -> Answer {
        let fuse = fuse.map_or(Fuse::Unlimited, Fuse::Left);
        self.with_lent(|ram, lent| fast::open(ram, lent, fuse))
    }

    fn call(&mut self, call: Call) -> Answer {
        self.with_lent(|ram, lent| match call {
            Call::Begin => fast::begin(ram, lent),
            Call::Change { visit, cell, amount } => fast::change(ram, lent, visit, cell, amount),
            Call::HandOver { giver, receiver, cell } => {
                fast::hand_over(ram, lent, giver, receiver, cell)
            }
            Call::HandOverAll { giver, receiver } => fast::hand_over_all(ram, lent, giver, receiver),
            Call::Commit { visit } => fast::commit(ram, lent, visit),
            Call::Abort { visit } => fast::abort(ram, lent, visit),
            Call::Force => fast::force(ram, lent),
            Call::FlushPage { page } => fast::flush_page(ram, lent, page),
            Call::Read { cell } => fast::read(ram, lent, cell),
        })
    }

    fn log(&self) -> &[u8] {
        &self.host.log
    }

    fn charts(&self) -> &[u8] {
        &self.host.charts
    }

    fn copy(&self) -> &[u8] {
        &self.host.copy
    }

    fn scopes(&self) -> Vec<Scope> {
        self.scopes.clone()
    }

    fn state(&self) -> State {
        let Ram { phase, fuse, stored, waiting, tables, tail } = self.ram;
        State {
            open: phase == Phase::Open,
            fuse: match fuse {
                Fuse::Unlimited => None,
                Fuse::Left(left) => Some(left),
            },
            stored: stored.into(),
            waiting: waiting.into(),
            begun: tables.begun.into(),
            active: tables.active_count.into(),
            used: tables.scope_count.into(),
            visits: tables.active,
            tail,
        }
    }

    fn ram(&self) -> Vec<u8> {
        let Ram { phase, fuse, stored, waiting, tables, tail } = self.ram;
        let mut ram = Vec::with_capacity(3_072);
        let (kind, left) = match fuse {
            Fuse::Unlimited => (0, 0),
            Fuse::Left(left) => (1, left),
        };
        ram.extend([u8::from(phase == Phase::Open), kind]);
        ram.extend(left.to_le_bytes());
        let counters = [stored, waiting, tables.begun, tables.active_count, tables.scope_count];
        ram.extend(counters.iter().chain(&tables.active).flat_map(|number| number.to_le_bytes()));
        ram.extend(tail);
        ram.extend(&self.host.copy);
        for Scope { maker, holder, cell, first, last, handed, count } in &self.scopes {
            ram.extend([*cell, u8::from(*handed)]);
            let numbers = [maker, holder, first, last, count];
            ram.extend(numbers.into_iter().flat_map(|number| number.to_le_bytes()));
        }
        ram
    }

    /// Rows and reserve together are held to the log's rows too.
    fn is_ready(&self) -> bool {
        let state = self.state();
        if !state.open || !state.is_within_limits() {
            return false;
        }
        let open: usize = self.scopes[..state.used].iter().map(|scope| usize::from(scope.count)).sum();
        state.stored + state.waiting + state.active + open <= ROWS
    }

    fn redo_page(&self, log: &[u8], page: &mut [u8], number: u8) -> Option<Answer> {
        Some(fast::redo_page(log, page, number))
    }

    fn forward(&self) -> Option<Result<Vec<u8>, Answer>> {
        let host = Host { lengths: RIGHT, ..self.host.clone() };
        let mut store = FastStore { host, ..FastStore::new() };
        let forward = store.with_lent(|ram, lent| fast::forward(&mut ram.tables, lent));
        Some(forward.map(|_| store.host.copy))
    }

    fn copied(&self) -> Box<dyn Store> {
        Box::new(self.clone())
    }

    fn set_fuse(&mut self, fuse: Option<u32>) {
        self.ram.fuse = fuse.map_or(Fuse::Unlimited, Fuse::Left);
    }

    fn log_mut(&mut self) -> &mut [u8] {
        &mut self.host.log
    }

    fn charts_mut(&mut self) -> &mut [u8] {
        &mut self.host.charts
    }

    fn lend(&mut self, buffer: Buffer, length: usize) {
        self.host.lengths.set(buffer, length);
    }

    /// Most of the state keeps within its bounds, so that calls go far into it; one thing does not.
    fn scramble(&mut self, seed: u64) {
        noise(seed, &mut self.host.copy);
        let rng = &mut Rng::new(seed ^ 1);
        let wild = rng.below(10);
        // Often few visits hold much more than the counts tell.
        let (visits, count) = rng.pick(&[(17, 2), (1, 0)]);
        // No call of a store that is left alone finds so many visits begun.
        let begun = rng.chance(1, 4).then(|| rng.pick(&[u16::MAX - 1, u16::MAX]));
        let mut number = |thing: usize, bound: u16| {
            let any = rng.draw() as u16;
            match thing == wild {
                true => rng.pick(&[bound + 1, 2 * bound, u16::MAX, any]),
                false => any % (bound + 1),
            }
        };
        self.ram.stored = number(0, 4_096);
        self.ram.waiting = number(1, 64);
        self.ram.tables.begun = begun.unwrap_or_else(|| number(2, 300));
        self.ram.tables.active_count = number(3, 16);
        self.ram.tables.scope_count = number(4, 64);
        if number(10, 1) == 1 {
            // As good as full.
            let free = self.ram.tables.active_count.saturating_add(number(10, 8));
            self.ram.stored = 4_096_u16.saturating_sub(self.ram.waiting.saturating_add(free));
        }
        for visit in &mut self.ram.tables.active {
            *visit = number(5, visits);
        }
        for scope in &mut self.scopes {
            *scope = Scope {
                maker: number(5, visits),
                holder: number(5, visits),
                cell: number(9, 255) as u8,
                first: number(6, 200),
                last: number(7, 4_096),
                handed: number(9, 1) == 1,
                count: number(8, count),
            };
        }
        for row in self.ram.tail.chunks_exact_mut(16) {
            rng.fill(row);
            row[0] = rng.below(9) as u8;
            row[1] = rng.below(18) as u8;
        }
        self.ram.fuse = match rng.below(3) {
            0 => Fuse::Unlimited,
            _ => Fuse::Left(rng.pick(&[0, 1, 2, 7, 40, 100])),
        };
        self.ram.phase = match rng.below(6) {
            0 => Phase::Closed,
            _ => Phase::Open,
        };
    }
}
