//! `bench` gives the proved store and the efficient store of `compare` the same calls, and measures them.
//!
//!     bench                    times, as ratios
//!     bench --instructions     instructions, counted by callgrind
//!     bench --ram              the RAM and the deepest stack of the proved store
//!     bench --check            every workload once, nothing measured
//!     bench --once WORKLOAD    one workload, nothing measured: what callgrind is given
//!
//! A difference in any answer, with its counts of stored writes, or in any stored byte ends the program with
//! exit status 1.

mod instructions;
mod ram;
mod run;
mod stores;
mod times;
mod workloads;

use std::process::ExitCode;

/// The comparison alone, as a test.
fn check() -> Result<(), String> {
    let calls = run::check()?;
    println!(
        "bench: {} workloads, {calls} calls by each store, no difference",
        workloads::WORKLOADS.len()
    );
    Ok(())
}

fn main() -> ExitCode {
    let words: Vec<String> = std::env::args().skip(1).collect();
    let words: Vec<&str> = words.iter().map(String::as_str).collect();
    let result = match words[..] {
        [] => times::report(),
        ["--instructions"] => instructions::report(),
        ["--ram"] => ram::report(),
        ["--check"] => check(),
        ["--once", name] => instructions::once(name),
        _ => Err("usage: bench [--instructions | --ram | --check | --once WORKLOAD]".to_string()),
    };
    match result {
        Ok(()) => ExitCode::SUCCESS,
        Err(reason) => {
            eprintln!("bench: {reason}");
            ExitCode::FAILURE
        }
    }
}
