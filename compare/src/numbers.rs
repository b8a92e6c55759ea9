//! RAM in numbers, as the proved store is handed it in both its forms: a head of eight, the visits, the
//! scope table, each entry of seven, and the tail.

use crate::prng::Rng;
use crate::store::{Answer, Scope, State, Writes, MOST_ACTIVE};

/// Numbers of an entry of the scope table.
pub const ENTRY: usize = 7;
/// Numbers of a place of the active visits.
pub const PLACE: usize = 2;

/// An answer in one number: the value in bits 0 to 31, the refusal number in bits 32 to 39, the rows that
/// the call stored in bits 40 to 55, the pages in bits 56 to 63.
pub fn unpacked(answer: u64) -> Answer {
    let writes = Writes { rows: (answer >> 40) as u16, pages: (answer >> 56) as u8 };
    Answer { number: (answer >> 32) as u8, value: i64::from(answer as u32 as i32), writes }
}

pub fn scopes(numbers: &[u16]) -> Vec<Scope> {
    let entry = |numbers: &[u16]| Scope {
        maker: numbers[0],
        holder: numbers[1],
        cell: numbers[2] as u8,
        first: numbers[3],
        last: numbers[4],
        handed: numbers[5] != 0,
        count: numbers[6],
    };
    numbers.chunks_exact(ENTRY).map(entry).collect()
}

/// In RAM that a host has altered any number but 0 is an open phase and a fuse, and the visits begun are
/// read modulo 65,536.
pub fn state(head: [u64; 8], visits: &[u16; 32], tail: &[u8; 1_024]) -> State {
    let [phase, kind, left, stored, waiting, begun, active, used] = head;
    let mut listed = [0; MOST_ACTIVE];
    for (visit, place) in listed.iter_mut().zip(visits.chunks_exact(PLACE)) {
        *visit = place[0];
    }
    State {
        open: phase != 0,
        fuse: (kind != 0).then_some(left as u32),
        stored: stored as usize,
        waiting: waiting as usize,
        begun: begun as usize % 65_536,
        active: active as usize,
        used: used as usize,
        visits: listed,
        tail: *tail,
    }
}

/// What a host puts in the place of RAM, but for the copy.
pub struct Garbage {
    pub head: [u64; 8],
    pub visits: [u16; 32],
    pub scopes: [u16; 448],
    pub tail: [u8; 1_024],
}

impl Garbage {
    /// Any numbers at all; in most cases with counters, visits and scopes within their bounds, so that
    /// calls go far, and often with few rows free and few writes left.
    pub fn new(seed: u64) -> Garbage {
        let rng = &mut Rng::new(seed ^ 1);
        let mut garbage = Garbage { head: [0; 8], visits: [0; 32], scopes: [0; 448], tail: [0; 1_024] };
        garbage.head.iter_mut().for_each(|number| *number = rng.draw());
        garbage.visits.iter_mut().for_each(|number| *number = rng.draw() as u16);
        garbage.scopes.iter_mut().for_each(|number| *number = rng.draw() as u16);
        rng.fill(&mut garbage.tail);
        if !rng.chance(1, 6) {
            garbage.keep_bounds(rng);
        }
        garbage
    }

    fn keep_bounds(&mut self, rng: &mut Rng) {
        let [phase, kind, left, stored, waiting, begun, active, used] = &mut self.head;
        *phase = u64::from(rng.chance(7, 8));
        *kind = rng.below(3) as u64;
        *left = rng.pick(&[0, 1, 2, 7, 40, 100]);
        *stored = rng.below(4_097) as u64;
        *waiting = rng.below(65) as u64;
        if rng.chance(1, 3) {
            *stored = 4_096 - *waiting - rng.pick(&[0, 0, 1, 8, 40]);
        }
        // No call of a store that is left alone finds so many visits begun.
        *begun = if rng.chance(1, 4) { rng.pick(&[65_534, 65_535]) } else { rng.below(300) as u64 };
        *active = rng.below(17) as u64;
        *used = rng.below(65) as u64;
        self.visits.iter_mut().for_each(|number| *number %= 18);
        let most = rng.pick(&[18, 2]);
        for entry in self.scopes.chunks_exact_mut(ENTRY) {
            let [maker, holder, cell, first, last, _, count] = entry else { continue };
            *maker %= most;
            *holder %= most;
            *cell %= 256;
            *first %= 200;
            *last %= 4_097;
            *count %= 3;
        }
    }
}
