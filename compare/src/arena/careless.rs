//! A host that does not keep to document 01: between two calls it passes another state, or writes to
//! the memory. "Then it still ends, with a result or a number from the table." This much is said of it:
//!
//! - A refusal changes no byte. 1 comes before all else, whatever RAM holds.
//! - A store that is closed, or has counters beyond their limits, answers 5 and changes no byte.
//! - In all other RAM a fuse decides nothing but where power fails. The same call without a fuse says
//!   which writes it makes: if the fuse has as many, the call answers and leaves the same and the fuse has
//!   so many less; if it has fewer, just these land, the call answers 5 and every byte of RAM is 0.
//! - There a begin answers 6 where 65,535 visits have begun, and nowhere else (02, L7).
//! - A commit or an abort may find tables that ask for more rows than the log has. It answers 5 and leaves
//!   RAM as power does, with a fuse or without.
//! - An answer counts the rows and pages that the call has stored, and no stored byte outside of them has
//!   changed: none for a refusal and for a call that finds the store closed, no page where power fails.

use super::endings::Made;
use super::memory::Memory;
use super::{guarded, Arena, Difference, Outcome};
use crate::cover::is_in_table;
use crate::prng::Rng;
use crate::report;
use crate::store::{Answer, Buffer, Call, Store, Writes, RIGHT};

const BUFFERS: [Buffer; 4] = [Buffer::Log, Buffer::Charts, Buffer::Copy, Buffer::Scopes];

impl Arena<'_> {
    /// Makes the calls with every store but the paper's. In the end all stores get the paper's log and
    /// charts back, and arbitrary RAM.
    pub(super) fn careless_host(&mut self, seed: u64, calls: &[Call]) -> Outcome<()> {
        let step = self.steps.len();
        self.lent = RIGHT;
        for buffer in BUFFERS {
            self.for_all(|store| store.lend(buffer, RIGHT.get(buffer)));
        }
        for other in &mut self.others {
            alter(&mut Rng::new(seed), other.as_mut());
            for (call, wrong) in calls.iter().zip(wrong_lengths()) {
                for wrong in [Some(wrong), None] {
                    let (ending, answer) = make(step, other.as_mut(), *call, wrong)?;
                    self.cover.altered_if(true, other.name(), ending);
                    let (is_done, Writes { rows, pages }) = (answer.number == 0, answer.writes);
                    self.cover.altered_if(is_done && rows > 0, other.name(), "done, rows counted");
                    self.cover.altered_if(!is_done && rows > 0, other.name(), "5, rows counted");
                    self.cover.altered_if(pages > 0, other.name(), "done, a page counted");
                    let last = is_done && *call == Call::Begin && answer.value == 65_535;
                    self.cover.altered_if(last, other.name(), "done, visit 65,535 begun");
                    self.calls += 1;
                }
            }
            other.log_mut().copy_from_slice(&self.paper.log);
            other.charts_mut().copy_from_slice(&self.paper.charts);
        }
        self.host_alters();
        self.for_all(|store| store.scramble(seed));
        Ok(())
    }
}

/// Wrong lengths, over and over: of each buffer in turn, and one too many, one too few and none in turn.
fn wrong_lengths() -> impl Iterator<Item = (Buffer, usize)> {
    (0..).map(|at| {
        let buffer = BUFFERS[at % BUFFERS.len()];
        let right = RIGHT.get(buffer);
        (buffer, [right + 1, right - 1, 0][at % 3])
    })
}

/// Makes the call, with a buffer of a wrong length if one is given, and says how it ended, with its answer.
fn make(
    step: usize,
    store: &mut dyn Store,
    call: Call,
    wrong: Option<(Buffer, usize)>,
) -> Outcome<(&'static str, Answer)> {
    let is_ready = store.is_ready();
    let mut whole = store.copied();
    whole.set_fuse(None);
    if let Some((buffer, length)) = wrong {
        store.lend(buffer, length);
    }
    let (state, before) = (store.state(), Memory::of(store));
    let answer = guarded(step, store, &|store| store.call(call))?;
    let made = Made { call, answer, state, before, after: Memory::of(store) };
    let ending = if !is_in_table(call, answer.number) || (answer.number != 0 && answer.value != 0) {
        Err("not an answer of the table".into())
    } else if let Some((buffer, length)) = wrong {
        let label = match length > RIGHT.get(buffer) {
            true => "refused by 1, a buffer too long",
            false => "refused by 1, a buffer too short",
        };
        made.refused_by(1).map(|()| label)
    } else if answer.number == 1 {
        Err("all buffers have their lengths".into())
    } else if !made.state.open {
        made.refused_by(5).map(|()| "5, the store is closed")
    } else if !is_ready {
        made.refused_by(5).map(|()| "5, counters beyond their limits")
    } else {
        let without_fuse = guarded(step, whole.as_mut(), &|store| store.call(call))?;
        made.judged_by(without_fuse, whole.as_ref(), store)
    };
    ending.map(|ending| (ending, answer)).map_err(|text| {
        let (name, call, answer) = (store.name(), report::call(call), report::answer(answer));
        Difference {
            step,
            text: format!("altered RAM or buffers: {name} answers {answer} to {call}: {text}"),
        }
    })
}

/// Passes another state, or writes to log and charts, or both.
fn alter(rng: &mut Rng, store: &mut dyn Store) {
    let (state, memory) = rng.pick(&[(true, true), (true, false), (false, true)]);
    if state {
        store.scramble(rng.draw());
    }
    if memory {
        let rows = rng.below(4_097);
        for (index, row) in store.log_mut().chunks_exact_mut(16).take(rows).enumerate() {
            row[0] = rng.below(8) as u8;
            row[1] = rng.below(18) as u8;
            row[2] = rng.below(18) as u8;
            row[3] = rng.byte();
            row[4..6].copy_from_slice(&(index as u16 + 1).to_le_bytes());
            row[8] = rng.byte();
            row[9] = rng.byte();
        }
        rng.fill(store.charts_mut());
    }
}
