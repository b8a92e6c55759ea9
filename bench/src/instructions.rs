//! Instructions of the same calls by both stores, counted by callgrind.
//!
//! For each workload and store callgrind runs this program with `--once`. It collects in the function that
//! makes the store's measured calls and in all that this calls, and writes what each function took. Two
//! counts are made of that: of the store's own functions, and of these with the function that lends them
//! the buffers, which is what a program that links the store pays for a call.

use crate::run::{make_all, run_both};
use crate::workloads::{Script, WORKLOADS};
use std::process::Command;
use std::thread;

/// The functions that make the measured calls, of the proved store and of the efficient one: they choose
/// the function for each call, and are in no count.
const MAKERS: [&str; 2] = ["counted_proved", "counted_efficient"];
/// The functions that lend the buffers to the stores.
const LENDERS: [&str; 2] = ["compare::proved::", "bench::stores::"];

/// The instructions of some calls.
struct Count {
    /// In the store's functions and in all that they call.
    store: u64,
    /// In the functions that lend them the buffers.
    lenders: u64,
}

/// Prints for each workload the ratio of the counts without and with lending, its name, and the counts for
/// one call: of the stores, and of lending by itself.
pub fn report() -> Result<(), String> {
    println!("store  call   workload");
    for (name, workload) in WORKLOADS {
        let calls = Script::of(workload).measured() as f64;
        let [proved, efficient] = MAKERS.map(|maker| count(name, maker));
        let (proved, efficient) = (proved?, efficient?);
        let ratio = |of: fn(&Count) -> u64| of(&proved) as f64 / of(&efficient) as f64;
        let store = ratio(|count| count.store);
        let call = ratio(|count| count.store + count.lenders);
        let each = |count: &Count| {
            let (store, lenders) = (count.store as f64 / calls, count.lenders as f64 / calls);
            format!("{store:>9.0} +{lenders:>3.0}")
        };
        println!("{store:<7.2}{call:<7.2}{name:<42}{} /{}", each(&proved), each(&efficient));
    }
    Ok(())
}

/// Runs one workload by both stores. It does so in a thread, whose stack lies at the same addresses
/// whatever the environment is: what a copy of bytes takes depends on where they lie.
pub fn once(name: &str) -> Result<(), String> {
    let found = WORKLOADS.into_iter().find(|workload| workload.0 == name);
    let (name, workload) = found.ok_or_else(|| format!("no workload has the name {name}"))?;
    let run = move || run_both(name, &Script::of(workload), make_all, make_all);
    thread::spawn(run).join().map_err(|_| format!("{name}: a call panicked"))?
}

/// The instructions of those calls of the workload that the function makes.
fn count(name: &str, maker: &str) -> Result<Count, String> {
    let program = std::env::current_exe().map_err(|error| error.to_string())?;
    let output = Command::new("valgrind")
        .args(["--quiet", "--tool=callgrind", "--callgrind-out-file=/dev/stdout"])
        .args(["--compress-strings=no", "--compress-pos=no"])
        .arg(format!("--toggle-collect={maker}"))
        .arg(program)
        .args(["--once", name])
        .output()
        .map_err(|error| {
            format!("valgrind is missing, or does not run; it counts the instructions: {error}")
        })?;
    let count = instructions(&String::from_utf8_lossy(&output.stdout));
    if !output.status.success() || count.store == 0 || count.lenders == 0 {
        let reason = String::from_utf8_lossy(&output.stderr);
        return Err(format!("{name}: nothing was counted: {}", reason.trim_end()));
    }
    Ok(count)
}

/// Adds up what callgrind wrote of each function, but for those that make the calls.
fn instructions(profile: &str) -> Count {
    let mut lines = profile.lines();
    let mut function = "";
    let mut count = Count { store: 0, lenders: 0 };
    while let Some(line) = lines.next() {
        if let Some(name) = line.strip_prefix("fn=") {
            function = name;
        } else if line.starts_with("calls=") {
            // The next line repeats what a called function took.
            lines.next();
        } else if line.starts_with(|first: char| first.is_ascii_digit()) {
            // A line of the source, or 0, and what it took.
            let taken = line.split(' ').nth(1).map_or(0, |taken| taken.parse().unwrap_or(0));
            if LENDERS.iter().any(|lender| function.contains(lender)) {
                count.lenders += taken;
            } else if !MAKERS.contains(&function) {
                count.store += taken;
            }
        }
    }
    count
}
