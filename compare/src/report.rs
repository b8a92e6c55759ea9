//! The text of reports: steps, rows, answers and scopes as a reader wants them.

use crate::arena::Difference;
use crate::paper::{Row, ABORT, BEGIN, CHANGE, COMMIT, HAND_OVER, HAND_OVER_ALL, UNDO};
use crate::steps::{place, Step};
use crate::store::{Answer, Call, Scope, State, Writes};

/// The steps of a case, the last of which shows the difference.
pub fn case(steps: &[Step], difference: &Difference) -> String {
    let texts: Vec<String> = steps.iter().map(step).collect();
    let Some((last, before)) = texts.split_last() else {
        return difference.text.clone();
    };
    let mut text = String::new();
    for (numbers, line) in grouped(before) {
        text += &format!("   {numbers:>9}  {line}\n");
    }
    text += &format!("=> {:>9}  {last}\n", steps.len());
    text + &format!("DIFFERENCE at step {}: {}\n", difference.step, difference.text)
}

/// Lines with their numbers from 1; equal lines that follow one another make one.
fn grouped(lines: &[String]) -> Vec<(String, &str)> {
    let mut groups = Vec::new();
    let mut first = 1;
    for group in lines.chunk_by(|one, next| one == next) {
        let numbers = match group.len() {
            1 => first.to_string(),
            count => format!("{first}-{}", first + count - 1),
        };
        groups.push((numbers, group[0].as_str()));
        first += group.len();
    }
    groups
}

/// An answer as the run file's lines have it: number, value, rows, pages.
pub fn answer(answer: Answer) -> String {
    let Answer { number, value, writes: Writes { rows, pages } } = answer;
    format!("{number} {value} {rows} {pages}")
}

pub fn byte(byte: Option<&u8>) -> String {
    byte.map_or("nothing".into(), u8::to_string)
}

pub fn scope(scope: Option<&Scope>) -> String {
    let Some(scope) = scope else {
        return "none".into();
    };
    let Scope { maker, holder, cell, first, last, handed, count } = scope;
    let handed = if *handed { ", handed over" } else { "" };
    format!("maker {maker}, holder {holder}, cell {cell}, rows {first} to {last}, {count} open{handed}")
}

/// The parts in which two states differ, as the first and as the second has them.
pub fn states(one: &State, two: &State) -> String {
    let parts = |state: &State| {
        [
            ("open", state.open.to_string()),
            ("fuse", format!("{:?}", state.fuse)),
            ("rows stored", state.stored.to_string()),
            ("rows waiting", state.waiting.to_string()),
            ("visits begun", state.begun.to_string()),
            ("visits active", state.active.to_string()),
            ("scopes in use", state.used.to_string()),
            ("active visits", format!("{:?}", state.visits)),
            ("tail", format!("{:?}", state.tail)),
        ]
    };
    let differing = parts(one).into_iter().zip(parts(two)).filter(|(one, two)| one != two);
    let texts = differing.map(|((name, one), (_, two))| format!("{name}, {one} and {two}"));
    texts.collect::<Vec<String>>().join("; ")
}

pub fn call(call: Call) -> String {
    let name = place(call);
    match call {
        Call::Begin | Call::Force => name.into(),
        Call::Change { visit, cell, amount } => {
            format!("{name}: visit {visit}, cell {cell}, {amount} g")
        }
        Call::HandOver { giver, receiver, cell } => {
            format!("{name}: from visit {giver} to visit {receiver}, cell {cell}")
        }
        Call::HandOverAll { giver, receiver } => {
            format!("{name}: from visit {giver} to visit {receiver}")
        }
        Call::Commit { visit } | Call::Abort { visit } => format!("{name}: visit {visit}"),
        Call::FlushPage { page } => format!("{name}: page {page}"),
        Call::Read { cell } => format!("{name}: cell {cell}"),
    }
}

fn step(step: &Step) -> String {
    match step {
        Step::Format(cells) => format(cells),
        Step::Open(None) => "open: no fuse".into(),
        Step::Open(Some(left)) => format!("open: fuse {left}"),
        Step::Call(made) => call(*made),
        Step::Lend(buffer, length) => {
            format!("(the next call is lent {buffer:?} with length {length})")
        }
        Step::Scramble(seed) => format!("(arbitrary RAM, seed {seed})"),
        Step::WriteLog(rows) => {
            let numbered = rows.iter().zip(1..);
            let texts: Vec<String> = numbered.map(|(bytes, number)| row(bytes, number)).collect();
            let mut text = format!("(the host writes a log of {} rows)", rows.len());
            for (numbers, line) in grouped(&texts) {
                text += &format!("\n      {numbers:>15}  {line}");
            }
            text
        }
        Step::WriteLogByte(at, byte) => {
            format!("(the host writes {byte} to byte {} of row {})", at % 16, at / 16 + 1)
        }
        Step::WriteCharts(at, bytes) => {
            format!("(the host writes {bytes:?} to page {} from byte {})", at / 32, at % 32)
        }
        Step::RedoPages(pages) => format!("redo alone: pages {pages:?}"),
        Step::RedoLent { log, page, number } => {
            format!("redo alone: page {number}, a log of {log} bytes and a page of {page}")
        }
        Step::Garbage(seed, calls) => {
            let mut text = format!("(arbitrary RAM and buffers, seed {seed}, then)");
            for made in calls {
                text += &format!("\n                       {}", call(*made));
            }
            text
        }
    }
}

fn format(cells: &[i32]) -> String {
    let mut text = format!("format: {} cells", cells.len());
    let mut others = cells.iter().enumerate().filter(|(_, grams)| **grams != 0);
    for (cell, grams) in others.by_ref().take(4) {
        text += &format!(", cell {cell}: {grams} g");
    }
    match others.count() {
        0 => text + ", the others 0",
        more => text + &format!(", and {more} more that are not 0"),
    }
}

/// A row in the place of this number; its bytes too, if they are not those of such a row.
fn row(bytes: &[u8; 16], number: u16) -> String {
    let row = Row::read(bytes);
    let Row { kind, visit, receiver, cell, undone, change, .. } = row;
    let plain = Row { kind, visit, number, ..Row::default() };
    let (text, right) = match kind {
        BEGIN => (format!("begin {visit}"), plain),
        CHANGE => {
            (format!("change by {visit} of cell {cell}: {change} g"), Row { cell, change, ..plain })
        }
        HAND_OVER => {
            (format!("hand-over {visit} to {receiver} of cell {cell}"), Row { receiver, cell, ..plain })
        }
        HAND_OVER_ALL => {
            (format!("hand-over {visit} to {receiver} of all cells"), Row { receiver, ..plain })
        }
        UNDO => (
            format!("undo of row {undone} for {visit}, cell {cell}: {change} g"),
            Row { cell, undone, change, ..plain },
        ),
        COMMIT => (format!("commit {visit}"), plain),
        ABORT => (format!("abort {visit}"), plain),
        _ => ("no row".into(), Row::default()),
    };
    if right.bytes() == *bytes {
        text
    } else {
        format!("{text}, bytes {bytes:?}")
    }
}
