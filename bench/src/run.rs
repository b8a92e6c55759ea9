//! A workload run by both stores, and the comparison of what they did.

use crate::stores::{Call, Charts, Efficient};
use crate::workloads::{Script, WORKLOADS};
use compare::proved::Proved;
use compare::store::{Answer, Writes};

/// Runs the workload by both stores. The two functions make the calls of a measured batch and add their
/// answers. Any difference between the stores is an error, and so is a refusal that the workload does not
/// ask for.
pub fn run_both(
    name: &str,
    script: &Script,
    measure_proved: impl FnMut(&mut Proved, &[Call], &mut Vec<Answer>),
    measure_efficient: impl FnMut(&mut Efficient, &[Call], &mut Vec<Answer>),
) -> Result<(), String> {
    let proved = run(script, measure_proved);
    let efficient = run(script, measure_efficient);
    compare(script, &proved, &efficient).map_err(|reason| format!("{name}: {reason}"))
}

/// Makes the calls of a batch.
pub fn make_all<S: Charts>(store: &mut S, calls: &[Call], answers: &mut Vec<Answer>) {
    answers.extend(calls.iter().map(|call| store.make_counted(*call)));
}

/// Runs every workload once by both stores, and measures nothing. Gives how many calls a store made.
pub fn check() -> Result<usize, String> {
    let mut calls = 0;
    for (name, workload) in WORKLOADS {
        let script = Script::of(workload);
        run_both(name, &script, make_all, make_all)?;
        calls += script.calls();
    }
    Ok(calls)
}

/// What a store answered, and what it has stored at the end.
struct Outcome {
    answers: Vec<Answer>,
    log: Vec<u8>,
    charts: Vec<u8>,
}

fn run<S: Charts>(
    script: &Script,
    mut measure: impl FnMut(&mut S, &[Call], &mut Vec<Answer>),
) -> Outcome {
    let mut store = S::new();
    // Written to before, so that no measured call waits for the system to give memory.
    let any = Answer { number: 1, value: 1, writes: Writes { rows: 1, pages: 1 } };
    let mut answers = vec![any; script.calls()];
    answers.clear();
    for batch in &script.batches {
        if batch.measured {
            measure(&mut store, &batch.calls, &mut answers);
        } else {
            answers.extend(batch.calls.iter().map(|call| store.make(*call)));
        }
    }
    Outcome { answers, log: store.log().to_vec(), charts: store.charts().to_vec() }
}

fn compare(script: &Script, proved: &Outcome, efficient: &Outcome) -> Result<(), String> {
    let mut answers = proved.answers.iter().zip(&efficient.answers);
    for batch in &script.batches {
        let number = if batch.measured { script.number } else { 0 };
        for (call, (proved, efficient)) in batch.calls.iter().zip(&mut answers) {
            if proved != efficient {
                return Err(format!("{call:?}: proved {proved:?}, efficient {efficient:?}"));
            }
            if proved.number != number {
                return Err(format!("{call:?}: both answer {}, not {number}", proved.number));
            }
        }
    }
    if proved.log != efficient.log {
        return Err("the stored logs differ at the end".to_string());
    }
    if proved.charts != efficient.charts {
        return Err("the stored charts differ at the end".to_string());
    }
    Ok(())
}
