//! RAM of the proved store: the arrays that it is lent, and the deepest stack of each workload, found by
//! painting the stack below each call and looking for the lowest word that is not paint any more.

use crate::run::{make_all, run_both};
use crate::stores::{Call, Charts};
use crate::workloads::{Script, WORKLOADS};
use compare::proved::{Proved, RAM_LENGTH};
use compare::store::Answer;
use std::arch::asm;

/// How far down the stack is painted.
const PAINTED: usize = 64 * 1024;
const WORD: usize = size_of::<u64>();
const PAINT: u64 = 0xA5C3_96E1_5A3C_691E;

/// Prints the deepest stack of each workload, and at the end the arrays and the deepest of all together.
pub fn report() -> Result<(), String> {
    let mut deepest = 0;
    for (name, workload) in WORKLOADS {
        let mut depth = 0;
        let measure = |store: &mut Proved, calls: &[Call], answers: &mut Vec<Answer>| {
            for call in calls {
                let (answer, used) = make_painted(store, *call);
                answers.push(answer);
                depth = depth.max(used);
            }
        };
        run_both(name, &Script::of(workload), measure, make_all)?;
        println!("{depth:<7}bytes of stack: {name}");
        deepest = deepest.max(depth);
    }
    println!("{deepest:<7}bytes of stack: the deepest");
    println!("{RAM_LENGTH:<7}bytes of RAM: head, visits, scopes, tail and copy");
    println!("{:<7}bytes of RAM and deepest stack together", RAM_LENGTH + deepest);
    Ok(())
}

/// Makes the call on a stack that is painted from this function's stack pointer down. Gives its answer, and
/// how far below the stack pointer it wrote.
#[inline(never)]
fn make_painted(store: &mut Proved, call: Call) -> (Answer, usize) {
    let top = paint();
    let answer = store.make(call);
    (answer, top - lowest_written(top - PAINTED, top))
}

/// Paints the stack below the stack pointer of the calling function, and gives that pointer. It is written in
/// instructions that need no stack themselves, so that no part above the paint is left out of the count.
#[inline(always)]
#[cfg(target_arch = "x86_64")]
fn paint() -> usize {
    let top: usize;
    unsafe {
        asm!(
            "mov {top}, rsp",
            "mov rcx, {words}",
            "2:",
            "sub {top}, 8",
            "mov [{top}], rax",
            "dec rcx",
            "jnz 2b",
            "mov {top}, rsp",
            top = out(reg) top,
            words = const PAINTED / WORD,
            in("rax") PAINT,
            out("rcx") _,
        );
    }
    top
}

/// The lowest word from `low` up to `high` that is not paint, or `high`.
#[inline(never)]
fn lowest_written(low: usize, high: usize) -> usize {
    let mut at = low;
    while at < high && unsafe { (at as *const u64).read_volatile() } == PAINT {
        at += WORD;
    }
    at
}
