//! The cases of the comparison, in parts. Every part makes its cases from a number, the seed, so that
//! each of them can be made again.

pub mod begins;
pub mod costliest;
pub mod counts;
pub mod crowded;
pub mod cuts;
pub mod damage;
pub mod document;
pub mod full_tails;
pub mod garbage;
pub mod limits;
pub mod pages_alone;
pub mod reasons;
pub mod rejected_logs;
pub mod row_bytes;
pub mod rows;
pub mod runfiles;
pub mod sessions;
pub mod short;
pub mod text;
pub mod twelve;
pub mod two_orders;
pub mod whole_visit_rows;
pub mod whole_visits;
pub mod wide_visits;

use crate::bench::{Bench, Failure};

/// A part of the comparison.
pub struct Part {
    pub name: &'static str,
    pub about: &'static str,
    /// How many seeds a run takes, and a long run.
    pub seeds: [u64; 2],
    /// Plays the cases of one seed.
    pub play: fn(&mut Bench, u64) -> Result<(), Failure>,
}

pub const PARTS: [Part; 18] = [
    Part {
        name: "document",
        about: "the cases of documents 01 and 02, with their answers",
        seeds: [document::COUNT; 2],
        play: document::play,
    },
    Part {
        name: "short",
        about: "every short list of calls of two visits on one cell",
        seeds: [short::lists(4), short::lists(5)],
        play: short::play,
    },
    Part {
        name: "sessions",
        about: "random sessions with cuts, arbitrary RAM and wrong lengths",
        seeds: [1_650, 25_000],
        play: sessions::play,
    },
    Part {
        name: "rows",
        about: "logs made row by row, with undo rows of visits in turns",
        seeds: [1_500, 16_000],
        play: rows::play,
    },
    Part {
        name: "row bytes",
        about: "every byte of a row of each kind, with every value",
        seeds: [row_bytes::COUNT; 2],
        play: row_bytes::play,
    },
    Part { name: "damage", about: "damaged logs and pages", seeds: [880, 8_000], play: damage::play },
    Part {
        name: "rejected logs",
        about: "logs refused for wrong bytes, a rule, a limit, or several of them",
        seeds: [400, 4_000],
        play: rejected_logs::play,
    },
    Part {
        name: "garbage",
        about: "arbitrary states, tables and buffers",
        seeds: [660, 6_000],
        play: garbage::play,
    },
    Part {
        name: "run files",
        about: "run files, right and wrong",
        seeds: [1_100, 10_000],
        play: runfiles::play,
    },
    Part {
        name: "cuts",
        about: "power failing at every write of calls and openings",
        seeds: [32, 260],
        play: cuts::play,
    },
    Part {
        name: "full tails",
        about: "full tails, and power failing while they are stored",
        seeds: [192, 1_600],
        play: full_tails::play,
    },
    Part {
        name: "crowded",
        about: "stores at several limits at once, calls with arguments at theirs",
        seeds: [72, 320],
        play: crowded::play,
    },
    Part {
        name: "pages alone",
        about: "pages redone alone in random orders, against the copy of an opening",
        seeds: [600, 6_000],
        play: pages_alone::play,
    },
    Part {
        name: "two orders",
        about: "two hand-overs of different cells in either order, and power failing around them",
        seeds: [160, 1_600],
        play: two_orders::play,
    },
    Part {
        name: "many visits",
        about: "sessions of several hundred visits",
        seeds: [8, 80],
        play: limits::many_visits,
    },
    Part {
        name: "all scopes",
        about: "sessions that use up the scopes",
        seeds: [72, 800],
        play: limits::all_scopes,
    },
    Part {
        name: "full rows",
        about: "logs made row by row until they are full",
        seeds: [6, 60],
        play: rows::play_full,
    },
    Part {
        name: "full log",
        about: "sessions that fill the log",
        seeds: [4, 20],
        play: limits::full_log,
    },
];
