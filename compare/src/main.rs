//! `compare` plays all cases on the paper's store and on every other implementation, and compares
//! answers, logs, charts, copies, scopes and states after each call.
//!
//!     compare                       all cases, about a minute
//!     compare --long                many more, some ten minutes
//!     compare --part NAME           the cases of one part
//!     compare --part NAME SEED      one case
//!     compare --cover               also how often they met each thing that they have to meet
//!
//! The exit status is 0 if the stores never differ and the cases met all that they should.

use compare::adapters::FastStore;
use compare::arena::{hush_stores, Maker};
use compare::bench::{Bench, Failure};
use compare::cases::{Part, PARTS};
use compare::proved::ProvedStore;
use compare::public::PublicStore;
use compare::report;
use compare::shrink::shrink;
use std::process::ExitCode;
use std::time::{Duration, Instant};

/// The implementations that are compared with the paper. A further one is added here.
const MAKERS: [Maker; 3] =
    [|| Box::new(FastStore::new()), || Box::new(ProvedStore::new()), || Box::new(PublicStore::new())];

struct Arguments {
    long: bool,
    cover: bool,
    part: Option<String>,
    seed: Option<u64>,
}

/// The arguments, or none if they are not as above.
fn arguments() -> Option<Arguments> {
    let mut arguments = Arguments { long: false, cover: false, part: None, seed: None };
    let mut words = std::env::args().skip(1).peekable();
    while let Some(word) = words.next() {
        match word.as_str() {
            "--long" => arguments.long = true,
            "--cover" => arguments.cover = true,
            "--part" => {
                let name = words.next()?;
                let seed = words.next_if(|word| !word.starts_with("--"));
                arguments.seed = seed.map(|word| word.parse()).transpose().ok()?;
                arguments.part = PARTS.iter().any(|part| part.name == name).then_some(name);
                arguments.part.as_ref()?;
            }
            _ => return None,
        }
    }
    Some(arguments)
}

fn main() -> ExitCode {
    let Some(arguments) = arguments() else {
        let names: Vec<&str> = PARTS.iter().map(|part| part.name).collect();
        eprintln!("usage: compare [--long] [--cover] [--part NAME [SEED]], NAME being one of");
        eprintln!("  {}", names.join(", "));
        return ExitCode::FAILURE;
    };
    let chosen = |part: &&Part| arguments.part.as_ref().is_none_or(|name| part.name == name);
    let mut bench = Bench::new(MAKERS.to_vec());
    hush_stores();
    for part in PARTS.iter().filter(chosen) {
        let begin = Instant::now();
        let (cases, calls) = (bench.cases, bench.calls);
        let seeds = match arguments.seed {
            Some(seed) => seed..seed + 1,
            None => 0..part.seeds[usize::from(arguments.long)],
        };
        for seed in seeds {
            if let Err(failure) = (part.play)(&mut bench, seed) {
                return fail(&bench.makers, part, seed, &failure);
            }
        }
        let (cases, calls) = (bench.cases - cases, bench.calls - calls);
        let seconds = begin.elapsed().as_secs_f64();
        println!(
            "{:<11} {cases:>7} cases {calls:>9} calls {seconds:>6.1} s  {}",
            part.name, part.about
        );
        bench.cover.played(part.name, cases, calls);
    }
    if arguments.cover {
        bench.cover.print();
    }
    if arguments.part.is_none() {
        let faults = bench.cover.faults();
        for fault in &faults {
            println!("{fault}");
        }
        if !faults.is_empty() {
            println!("compare: {} cases, {} things amiss in what they met", bench.cases, faults.len());
            return ExitCode::FAILURE;
        }
        println!("{} things met, each as often as asked for", bench.cover.things());
    }
    println!("compare: {} cases, {} calls, no difference", bench.cases, bench.calls);
    ExitCode::SUCCESS
}

/// Prints the shortest case that shows the difference.
fn fail(makers: &[Maker], part: &Part, seed: u64, failure: &Failure) -> ExitCode {
    println!("part {}, seed {seed}: the stores differ", part.name);
    println!("in step {} of the case: {}", failure.difference.step, failure.difference.text);
    match shrink(makers, &failure.steps, Duration::from_secs(20)) {
        Some(shortest) => {
            println!("the shortest case found has {} steps:", shortest.steps.len());
            print!("{}", report::case(&shortest.steps, &shortest.difference));
        }
        None => {
            println!("the steps of the case:");
            print!("{}", report::case(&failure.steps, &failure.difference));
        }
    }
    println!("compare: DIFFERENCE in part {}, seed {seed}", part.name);
    ExitCode::FAILURE
}
