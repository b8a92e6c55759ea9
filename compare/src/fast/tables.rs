//! The tables that follow the rows: active visits and scopes.
//!
//! The active visits stand in ascending order at the start of their array. The scopes in use stand in
//! ascending order of `first` at the start of the lent table. At every moment, for every list of rows
//! that the row rules allow, the table has one entry for each scope in use: `last` is its last change
//! that is not undone, 0 for none, and `count` the number of such changes.

use super::rows::{Row, Rows, BEGIN, CHANGE, HAND_OVER, HAND_OVER_ALL, ROWS, UNDO};
use crate::store::Scope;

pub const MOST_ACTIVE: usize = 16;
pub const MOST_SCOPES: usize = 64;
pub const MOST_VISITS: u16 = 65_535;

#[derive(Clone, Copy, PartialEq, Eq, Debug)]
pub struct Tables {
    pub begun: u16,
    pub active_count: u16,
    pub active: [u16; MOST_ACTIVE],
    pub scope_count: u16,
}

impl Tables {
    pub const EMPTY: Tables =
        Tables { begun: 0, active_count: 0, active: [0; MOST_ACTIVE], scope_count: 0 };

    /// Where the visit stands among the active ones.
    #[inline]
    pub fn place(&self, visit: u16) -> Option<usize> {
        let active = &self.active[..usize::from(self.active_count)];
        active.iter().position(|active| *active == visit)
    }

    pub fn is_active(&self, visit: u16) -> bool {
        self.place(visit).is_some()
    }

    pub fn in_use<'a>(&self, scopes: &'a [Scope]) -> &'a [Scope] {
        &scopes[..usize::from(self.scope_count)]
    }

    /// Active visits and open changes.
    #[inline]
    pub fn reserve(&self, scopes: &[Scope]) -> usize {
        let open: usize = self.in_use(scopes).iter().map(|scope| usize::from(scope.count)).sum();
        usize::from(self.active_count) + open
    }

    /// The entry that a change of the cell by the visit grows.
    pub fn growing(&self, scopes: &[Scope], visit: u16, cell: u8) -> Option<usize> {
        self.in_use(scopes)
            .iter()
            .position(|scope| scope.maker == visit && scope.cell == cell && !scope.handed)
    }

    pub fn holds(&self, scopes: &[Scope], visit: u16, cell: u8) -> bool {
        self.in_use(scopes).iter().any(|scope| scope.holder == visit && scope.cell == cell)
    }

    pub fn holds_any(&self, scopes: &[Scope], visit: u16) -> bool {
        self.in_use(scopes).iter().any(|scope| scope.holder == visit)
    }

    /// The highest open change of the holder, 0 for none.
    #[inline]
    pub fn highest(&self, scopes: &[Scope], holder: u16) -> u16 {
        let held = self.in_use(scopes).iter().filter(|scope| scope.holder == holder);
        held.map(|scope| scope.last).max().unwrap_or(0)
    }

    /// The tables after one more row, where `rows` has those before it. The caller has seen to it
    /// that a begin finds a free place, and a change an entry to grow or a free one.
    pub fn follow(&mut self, scopes: &mut [Scope], row: &Row, rows: &Rows) {
        match row.kind {
            BEGIN => {
                self.active[usize::from(self.active_count)] = row.visit;
                self.active_count += 1;
                self.begun += 1;
            }
            CHANGE => match self.growing(scopes, row.visit, row.cell) {
                Some(at) => {
                    scopes[at].last = row.number;
                    scopes[at].count += 1;
                }
                None => {
                    scopes[usize::from(self.scope_count)] = Scope {
                        maker: row.visit,
                        holder: row.visit,
                        cell: row.cell,
                        first: row.number,
                        last: row.number,
                        handed: false,
                        count: 1,
                    };
                    self.scope_count += 1;
                }
            },
            HAND_OVER => self.pass_on(scopes, row, |scope| scope.cell == row.cell),
            HAND_OVER_ALL => self.pass_on(scopes, row, |_| true),
            UNDO => {
                let scope = scopes[..usize::from(self.scope_count)]
                    .iter_mut()
                    .find(|scope| scope.holder == row.visit && scope.last == row.undone);
                if let Some(scope) = scope {
                    scope.last = change_before(scope, rows);
                    scope.count = scope.count.saturating_sub(1);
                }
            }
            _ => self.end_visit(scopes, row.visit),
        }
    }

    /// Makes the row's receiver the holder of those of the giver's scopes that are chosen. None of them
    /// grows any more.
    fn pass_on(&self, scopes: &mut [Scope], row: &Row, is_chosen: impl Fn(&Scope) -> bool) {
        for scope in &mut scopes[..usize::from(self.scope_count)] {
            if scope.holder == row.visit && is_chosen(scope) {
                scope.holder = row.receiver;
                scope.handed = true;
            }
        }
    }

    /// Takes a visit, and the scopes that it holds, out of the tables.
    fn end_visit(&mut self, scopes: &mut [Scope], visit: u16) {
        let mut kept = 0;
        for at in 0..usize::from(self.active_count) {
            if self.active[at] != visit {
                self.active[kept] = self.active[at];
                kept += 1;
            }
        }
        self.active[kept..].fill(0);
        self.active_count = kept as u16;

        let used = usize::from(self.scope_count);
        let mut kept = 0;
        for at in 0..used {
            if scopes[at].holder != visit {
                scopes[kept] = scopes[at];
                kept += 1;
            }
        }
        scopes[kept..used].fill(Scope::default());
        self.scope_count = kept as u16;
    }
}

/// The last change of the scope below its present `last`, 0 for none. Only the maker's changes of
/// the cell from `first` on can belong to the scope.
fn change_before(scope: &Scope, rows: &Rows) -> u16 {
    let above = scope.last.min(ROWS as u16 + 1);
    for number in (scope.first..above).rev() {
        let row = rows.get(number);
        if row.kind == CHANGE && row.visit == scope.maker && row.cell == scope.cell {
            return number;
        }
    }
    0
}
