//! The floors: how often the cases have to meet each thing.
//!
//! A thing that is met once, by luck or by a single case with fixed arguments, shows little. The cases of a
//! run are always the same, so each floor is about a third of what they reach: cases that are altered and as
//! good as before stay above all floors, and where a part of them stops, or makes something by luck alone,
//! some floor is missed.

mod answers;
mod shapes;

pub use answers::{ANSWERS, PAIRS};
pub use shapes::{SHAPES, WRITES};

/// A label, and how often it has to be met.
pub type Floor = (&'static str, u64);
/// A place, and what has to be met there.
pub type Line = (&'static str, &'static [Floor]);

pub struct Table {
    pub title: &'static str,
    pub lines: &'static [Line],
}

impl Table {
    pub fn has(&self, place: &str, label: &str) -> bool {
        let mut lines = self.lines.iter().filter(|(name, _)| *name == place);
        lines.any(|(_, floors)| floors.iter().any(|floor| floor.0 == label))
    }
}

pub const TABLES: [Table; 5] = [PLAYED, ANSWERS, PAIRS, WRITES, SHAPES];

/// What each part has to play.
pub const PLAYED: Table = Table {
    title: "cases and calls, by part",
    lines: &[
        ("document", &[("cases", 33), ("calls", 9_900)]),
        ("short", &[("cases", 9_500), ("calls", 95_000)]),
        ("sessions", &[("cases", 550), ("calls", 82_000)]),
        ("rows", &[("cases", 3_300), ("calls", 7_500)]),
        ("row bytes", &[("cases", 37), ("calls", 9_500)]),
        ("damage", &[("cases", 290), ("calls", 29_000)]),
        ("rejected logs", &[("cases", 130), ("calls", 8_100)]),
        ("garbage", &[("cases", 220), ("calls", 53_000)]),
        ("run files", &[("cases", 360), ("calls", 19_000)]),
        ("cuts", &[("cases", 950), ("calls", 120_000)]),
        ("full tails", &[("cases", 590), ("calls", 52_000)]),
        ("crowded", &[("cases", 24), ("calls", 3_900)]),
        ("pages alone", &[("cases", 200), ("calls", 19_000)]),
        ("two orders", &[("cases", 590), ("calls", 75_000)]),
        ("many visits", &[("cases", 2), ("calls", 4_900)]),
        ("all scopes", &[("cases", 24), ("calls", 12_000)]),
        ("full rows", &[("cases", 38), ("calls", 86)]),
        ("full log", &[("cases", 1), ("calls", 4_700)]),
    ],
};

/// How calls end in RAM or buffers that a host has altered. Each store has to meet each of them as often.
pub const ALTERED: &[Floor] = &[
    ("done", 400),
    ("done under a fuse", 490),
    ("refused by 1, a buffer too long", 2_200),
    ("refused by 1, a buffer too short", 3_700),
    ("refused by another number", 1_400),
    ("refused by 6, visits used up", 20),
    ("done, visit 65,535 begun", 6),
    ("5, the store is closed", 1_100),
    ("5, counters beyond their limits", 630),
    ("5, power failed", 62),
    ("5, the log is full", 7),
    ("done, rows counted", 310),
    ("done, a page counted", 130),
    ("5, rows counted", 46),
];
