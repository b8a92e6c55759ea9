//! Times of the same calls by both stores, in turn. No time is held to a limit: a busy machine says nothing
//! of the store.

use crate::run::{make_all, run_both};
use crate::stores::{Call, Charts};
use crate::workloads::{Script, WORKLOADS};
use compare::store::Answer;
use std::time::{Duration, Instant};

const ROUNDS: usize = 15;

/// Prints for each workload the ratio of the best times, its name, and both times of one call.
pub fn report() -> Result<(), String> {
    for (name, workload) in WORKLOADS {
        let script = Script::of(workload);
        let mut best = [Duration::MAX; 2];
        for _ in 0..ROUNDS {
            let [mut proved, mut efficient] = [Duration::ZERO; 2];
            run_both(name, &script, timed(&mut proved), timed(&mut efficient))?;
            best = [best[0].min(proved), best[1].min(efficient)];
        }
        let [proved, efficient] = best.map(|time| time.as_secs_f64() / script.measured() as f64);
        let ratio = proved / efficient;
        println!("{ratio:<7.2}{name:<42}{:>11} /{:>11}", shown(proved), shown(efficient));
    }
    Ok(())
}

/// Makes the calls of a batch, and adds up their time.
fn timed<S: Charts>(time: &mut Duration) -> impl FnMut(&mut S, &[Call], &mut Vec<Answer>) + '_ {
    move |store, calls, answers| {
        let begin = Instant::now();
        make_all(store, calls, answers);
        *time += begin.elapsed();
    }
}

fn shown(seconds: f64) -> String {
    match seconds {
        s if s < 1e-5 => format!("{:.0} ns", s * 1e9),
        s if s < 1e-2 => format!("{:.1} us", s * 1e6),
        s => format!("{:.1} ms", s * 1e3),
    }
}
