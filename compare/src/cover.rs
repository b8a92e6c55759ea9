//! What the cases have met: every refusal of 01's table, with the lines that requests L2 and L8 of 02 add to
//! it, and of a page redone alone (L3), by its place, two refusals at once, stored writes and the places where
//! power failed, and shapes of stores and calls in which errors of this trade show. A comparison that meets
//! one of them less often than `floors.rs` asks does not count. `observe.rs` finds out what was met.

mod floors;

use crate::steps::place;
use crate::store::Call;
use floors::{Line, ALTERED, ANSWERS, PAIRS, PLAYED, SHAPES, TABLES, WRITES};
use std::collections::{BTreeMap, BTreeSet};

#[derive(Default)]
pub struct Cover {
    /// How often a thing was met, by the title of its table, its place there and its label.
    met: BTreeMap<(&'static str, &'static str, String), u64>,
    most: BTreeMap<&'static str, usize>,
    stores: BTreeSet<&'static str>,
}

impl Cover {
    /// A store that takes part.
    pub fn store(&mut self, name: &'static str) {
        self.stores.insert(name);
    }

    /// The cases of a part, and the calls that they made.
    pub fn played(&mut self, part: &'static str, cases: u64, calls: u64) {
        self.meet(PLAYED.title, part, "cases".into(), cases);
        self.meet(PLAYED.title, part, "calls".into(), calls);
    }

    /// The answer to a call.
    pub fn answer(&mut self, place: &'static str, label: impl Into<String>) {
        self.meet(ANSWERS.title, place, label.into(), 1);
    }

    /// The conditions of 01's table that hold for a call, in checking order. One that answers and the next
    /// in the table make a pair.
    pub fn conditions(&mut self, place: &'static str, holding: &[&'static str]) {
        let answering = |label: &str| number_of(label) == number_of(holding[0]);
        for pair in holding.windows(2).filter(|pair| answering(pair[0])) {
            let label = pair.join(" and ");
            if PAIRS.has(place, &label) {
                self.meet(PAIRS.title, place, label, 1);
            }
        }
    }

    /// What became of the stored writes of a call or an opening.
    pub fn writes_if(&mut self, condition: bool, place: &'static str, label: &'static str) {
        if condition {
            debug_assert!(WRITES.has(place, label), "{place}, {label}");
            self.meet(WRITES.title, place, label.into(), 1);
        }
    }

    pub fn shape_if(&mut self, condition: bool, label: &'static str) {
        let line = SHAPES.lines.iter().find(|(_, floors)| floors.iter().any(|floor| floor.0 == label));
        debug_assert!(line.is_some(), "{label}");
        if let (true, Some((place, _))) = (condition, line) {
            self.meet(SHAPES.title, place, label.into(), 1);
        }
    }

    /// How a call of a store ended whose RAM or buffers the host had altered.
    pub fn altered_if(&mut self, condition: bool, store: &'static str, label: &'static str) {
        if condition {
            debug_assert!(ALTERED.iter().any(|floor| floor.0 == label), "{label}");
            self.meet(ALTERED_TITLE, store, label.into(), 1);
        }
    }

    /// The greatest number met under this name.
    pub fn most(&mut self, name: &'static str, value: usize) {
        let most = self.most.entry(name).or_insert(0);
        *most = value.max(*most);
    }

    fn meet(&mut self, title: &'static str, place: &'static str, label: String, times: u64) {
        *self.met.entry((title, place, label)).or_insert(0) += times;
    }

    fn count(&self, title: &'static str, place: &'static str, label: &str) -> u64 {
        *self.met.get(&(title, place, label.to_string())).unwrap_or(&0)
    }

    /// All that is asked for: title, and lines of it.
    fn asked(&self) -> Vec<(&'static str, Vec<Line>)> {
        let mut asked: Vec<(&'static str, Vec<Line>)> =
            TABLES.iter().map(|table| (table.title, table.lines.to_vec())).collect();
        asked.push((ALTERED_TITLE, self.stores.iter().map(|store| (*store, ALTERED)).collect()));
        asked
    }

    /// Everything that is asked for, with how often it was met.
    pub fn print(&self) {
        for (title, lines) in self.asked() {
            println!("{title}: how often met, of how often asked for at least");
            for (place, floors) in lines {
                println!("  {place}");
                for (label, least) in floors {
                    let count = self.count(title, place, label);
                    println!("    {label:<54} {count:>7} of {least}");
                }
            }
        }
        println!("the most in one case");
        for (name, value) in &self.most {
            println!("    {name:<54} {value:>7}");
        }
    }

    /// How many things are asked for.
    pub fn things(&self) -> usize {
        let lines = self.asked().into_iter().flat_map(|(_, lines)| lines);
        lines.map(|(_, floors)| floors.len()).sum()
    }

    /// What was met less often than asked for, and answers that 01's table does not have.
    pub fn faults(&self) -> Vec<String> {
        let mut faults = Vec::new();
        for (title, lines) in self.asked() {
            for (place, floors) in lines {
                for (label, least) in floors {
                    let count = self.count(title, place, label);
                    if count < *least {
                        faults
                            .push(format!("met {count} times, of {least}: {title}, {place}, {label}"));
                    }
                }
            }
        }
        for (title, place, label) in self.met.keys() {
            if *title == ANSWERS.title && !ANSWERS.has(place, label) {
                faults.push(format!("not in the table: {place}, {label}"));
            }
        }
        faults
    }
}

const ALTERED_TITLE: &str = "calls on altered RAM or buffers, by store";

/// The refusal number with which a label begins, or none.
pub fn number_of(label: &str) -> Option<u8> {
    label.split(' ').next()?.parse().ok()
}

/// Whether 01's table has this number for the call. 02, L7: "refusal 6 never occurs any more in 01's
/// sessions", but a host's state may have 65,535 visits begun.
pub fn is_in_table(call: Call, number: u8) -> bool {
    if call == Call::Begin && number == 6 {
        return true;
    }
    let lines = ANSWERS.lines.iter().filter(|(name, _)| *name == place(call));
    let mut labels = lines.flat_map(|(_, floors)| floors.iter().map(|floor| floor.0));
    number == 0 || labels.any(|label| number_of(label) == Some(number))
}
