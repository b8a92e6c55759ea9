//! The chart store of document 01 with requests L1 to L4, L7 and L8 of document 02 (L5 and L6 add no rule),
//! written twice in Rust, and the comparison of the proved store with both.
//!
//! `paper` is document 01 rendered as literally as possible; `fast` is an efficient store; `proved` is the
//! proved one by its header for C (`header`), and `public` the same by its public calls. The comparison gives
//! all the same calls and expects the same answers and the same bytes after each of them. It knows a store
//! only by the trait `Store`.

pub mod adapters;
pub mod arena;
pub mod bench;
pub mod cases;
pub mod cover;
pub mod demands;
pub mod fast;
pub mod header;
pub mod numbers;
pub mod observe;
pub mod paper;
pub mod prng;
pub mod proved;
#[cfg(feature = "public_calls")]
pub mod public;
pub mod report;
pub mod runfile;
pub mod shrink;
pub mod steps;
pub mod store;
