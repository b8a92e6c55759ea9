//! Run files: random sessions written as run files and run by every store and by the proved program
//! `relog`, and run files that are altered a little, of which most have to give the line `15`.

use super::sessions::{fuse, habits, next_call};
use crate::arena::{Arena, Outcome};
use crate::bench::{Bench, Failure};
use crate::paper::Paper;
use crate::prng::Rng;
use crate::proved::relog;
use crate::runfile::{parse, run, write, Session, CALL_BYTES, ENTRY_BYTES};
use crate::steps::Step;
use crate::store::{Call, CELLS};
use std::ops::Range;

pub fn play(bench: &mut Bench, seed: u64) -> Result<(), Failure> {
    let rng = &mut Rng::new(seed);
    let makers = bench.makers.clone();
    bench.case(|arena| {
        let mut file = write(&sessions(rng, arena)?);
        for _ in 0..4 {
            let expected = run(&file, &mut Paper::new());
            let mut outputs: Vec<String> =
                makers.iter().map(|make| run(&file, make().as_mut())).collect();
            outputs.push(relog(&file));
            if let Some(lines) = outputs.iter().find(|lines| **lines != expected) {
                return arena
                    .differs(format!("the run file {file:?} gives\n{expected}and not\n{lines}"));
            }
            arena.cover().answer("run file", label(&file, &expected));
            alter(rng, &mut file);
        }
        Ok(())
    })?;
    Ok(())
}

/// Sessions, played as steps too.
fn sessions(rng: &mut Rng, arena: &mut Arena) -> Outcome<Vec<Session>> {
    let habits = habits(rng);
    let mut sessions = Vec::new();
    arena.step(Step::Format(vec![0; CELLS]))?;
    for _ in 0..1 + rng.below(4) {
        let fuse = fuse(rng);
        let mut calls = Vec::new();
        arena.step(Step::Open(fuse))?;
        for _ in 0..rng.below(40) {
            let call = next_call(rng, &habits, arena.ledger());
            arena.step(Step::Call(call))?;
            calls.push(call);
        }
        sessions.push(Session { fuse, calls });
    }
    Ok(sessions)
}

/// What was met with a file that gives these lines. Of code 9 it is met that a whole visit was handed over,
/// and that a file was refused for nothing but a cell, or a change, in a call with code 9; of any code, that it
/// was refused for nothing but high bytes of a visit or a receiver.
fn label(file: &[u8], lines: &str) -> &'static str {
    match parse(file) {
        Some(sessions) if hands_over_all(&sessions, lines) => "run with code 9",
        Some(_) => "run",
        None if is_right_without(file, &calls_with_code_9(file), 3..4) => "15 for a cell of code 9",
        None if is_right_without(file, &calls_with_code_9(file), 4..6) => "15 for a change of code 9",
        None if is_right_without(file, &calls(file), 6..8) => "15 for an unused high byte",
        None => "15",
    }
}

/// Whether in these sessions, which give these lines, a hand-over of a whole visit is done.
fn hands_over_all(sessions: &[Session], lines: &str) -> bool {
    let mut is_done = lines.lines().map(|line| line.split(' ').nth(2) == Some("0"));
    sessions.iter().any(|session| {
        let _opening = is_done.next();
        let mut calls = session.calls.iter().zip(&mut is_done);
        calls.any(|(call, is_done)| is_done && matches!(call, Call::HandOverAll { .. }))
    })
}

/// Whether the file is right once these bytes of each of these calls are zero.
fn is_right_without(file: &[u8], calls: &[usize], bytes: Range<usize>) -> bool {
    let mut file = file.to_vec();
    for call in calls {
        file[*call..][bytes.clone()].fill(0);
    }
    parse(&file).is_some()
}

/// Where the calls start, if the entries of the sessions are right.
fn calls(file: &[u8]) -> Vec<usize> {
    let sessions = file.first().copied().map_or(0, usize::from);
    let calls = (1 + ENTRY_BYTES * sessions..).step_by(CALL_BYTES);
    calls.take_while(|call| call + CALL_BYTES <= file.len()).collect()
}

fn calls_with_code_9(file: &[u8]) -> Vec<usize> {
    calls(file).into_iter().filter(|call| file[*call] == 9).collect()
}

fn alter(rng: &mut Rng, file: &mut Vec<u8>) {
    let at = rng.below(file.len().max(1));
    let (calls, with_code_9) = (calls(file), calls_with_code_9(file));
    match rng.below(8) {
        0 => file.truncate(at),
        1 => file.push(rng.byte()),
        2 => file.resize(4_097, 0),
        _ if file.is_empty() => {}
        3 => file[at] = 0,
        4 => {
            let head = 33.min(file.len());
            file[rng.below(head)] ^= 1 << rng.below(8);
        }
        5 if !with_code_9.is_empty() => {
            let call = rng.pick(&with_code_9);
            file[call + rng.pick(&[3, 4, 5])] ^= 1 << rng.below(8);
        }
        6 if !calls.is_empty() => {
            let call = rng.pick(&calls);
            file[call + rng.pick(&[6, 7])] ^= 1 << rng.below(8);
        }
        _ => file[at] = rng.byte(),
    }
}
