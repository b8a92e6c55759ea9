//! The run file: read, checked as a whole, run on a store, and written.
//!
//! "First a byte s, 1 to 32, then s entries of 8 bytes: fuse (4 bytes; 4294967295 is none), start of
//! body (2, the file's first byte being 0), calls (2). Then the bodies, without gaps, in order, to
//! the end." 02, L7: "Calls in the run file become 8 bytes, the two high bytes last": code, visit, receiver,
//! cell or page, change (2), the visit's high byte, the receiver's.

use crate::store::{Answer, Call, Store, Writes, CELLS};

pub const MOST_BYTES: usize = 4_096;
pub const ENTRY_BYTES: usize = 8;
pub const CALL_BYTES: usize = 8;
const NO_FUSE: u32 = 4_294_967_295;

#[derive(Clone, PartialEq, Debug)]
pub struct Session {
    pub fuse: Option<u32>,
    pub calls: Vec<Call>,
}

/// The sessions of a run file; none if anything in it is not as 01 says.
pub fn parse(file: &[u8]) -> Option<Vec<Session>> {
    if file.len() > MOST_BYTES {
        return None;
    }
    let count = usize::from(*file.first()?);
    if !(1..=32).contains(&count) {
        return None;
    }
    let mut sessions = Vec::new();
    let mut next_body = 1 + ENTRY_BYTES * count;
    for entry in file.get(1..next_body)?.chunks_exact(ENTRY_BYTES) {
        let fuse = u32::from_le_bytes([entry[0], entry[1], entry[2], entry[3]]);
        let start = usize::from(u16::from_le_bytes([entry[4], entry[5]]));
        let calls = usize::from(u16::from_le_bytes([entry[6], entry[7]]));
        if start != next_body {
            return None;
        }
        next_body += CALL_BYTES * calls;
        let body = file.get(start..next_body)?;
        sessions.push(Session {
            fuse: (fuse != NO_FUSE).then_some(fuse),
            calls: body.chunks_exact(CALL_BYTES).map(parse_call).collect::<Option<Vec<Call>>>()?,
        });
    }
    (next_body == file.len()).then_some(sessions)
}

/// "Codes: 1 begin, 2 change, 3 hand over, 4 commit, 5 abort, 6 flush, 7 force, 8 read; unused bytes
/// are zero." 02, L2, of the hand-over of a whole visit: "The run file gets code 9." A call is right if
/// its bytes are those that it would be written with.
fn parse_call(bytes: &[u8]) -> Option<Call> {
    let visit = u16::from_le_bytes([bytes[1], bytes[6]]);
    let receiver = u16::from_le_bytes([bytes[2], bytes[7]]);
    let place = bytes[3];
    let amount = i16::from_le_bytes([bytes[4], bytes[5]]);
    let call = match bytes[0] {
        1 => Call::Begin,
        2 => Call::Change { visit, cell: place, amount },
        3 => Call::HandOver { giver: visit, receiver, cell: place },
        4 => Call::Commit { visit },
        5 => Call::Abort { visit },
        6 => Call::FlushPage { page: place },
        7 => Call::Force,
        8 => Call::Read { cell: place },
        9 => Call::HandOverAll { giver: visit, receiver },
        _ => return None,
    };
    (write_call(call) == bytes).then_some(call)
}

fn write_call(call: Call) -> [u8; CALL_BYTES] {
    let (code, visit, receiver, place, amount) = match call {
        Call::Begin => (1, 0, 0, 0, 0),
        Call::Change { visit, cell, amount } => (2, visit, 0, cell, amount),
        Call::HandOver { giver, receiver, cell } => (3, giver, receiver, cell, 0),
        Call::Commit { visit } => (4, visit, 0, 0, 0),
        Call::Abort { visit } => (5, visit, 0, 0, 0),
        Call::FlushPage { page } => (6, 0, 0, page, 0),
        Call::Force => (7, 0, 0, 0, 0),
        Call::Read { cell } => (8, 0, 0, cell, 0),
        Call::HandOverAll { giver, receiver } => (9, giver, receiver, 0, 0),
    };
    let ([v0, v1], [r0, r1]) = (visit.to_le_bytes(), receiver.to_le_bytes());
    let [a0, a1] = i16::to_le_bytes(amount);
    [code, v0, r0, place, a0, a1, v1, r1]
}

/// The run file with these sessions.
pub fn write(sessions: &[Session]) -> Vec<u8> {
    let mut file = vec![sessions.len() as u8];
    let mut start = 1 + ENTRY_BYTES * sessions.len();
    for session in sessions {
        file.extend(session.fuse.unwrap_or(NO_FUSE).to_le_bytes());
        file.extend((start as u16).to_le_bytes());
        file.extend((session.calls.len() as u16).to_le_bytes());
        start += CALL_BYTES * session.calls.len();
    }
    for session in sessions {
        file.extend(session.calls.iter().flat_map(|call| write_call(*call)));
    }
    file
}

/// "Formats zeros and reads standard input." The output lines: "session, call (0 is the opening),
/// refusal number or 0, value"; or "the line `15` alone". 02, L1: "The run file's lines get both counts at
/// the end": rows, then pages.
pub fn run(file: &[u8], store: &mut dyn Store) -> String {
    let Some(sessions) = parse(file) else {
        return "15\n".to_string();
    };
    store.format(&[0; CELLS]);
    let mut lines = String::new();
    let mut print = |session: usize, call: usize, answer: Answer| {
        let Answer { number, value, writes: Writes { rows, pages } } = answer;
        lines += &format!("{session} {call} {number} {value} {rows} {pages}\n");
    };
    for (session, Session { fuse, calls }) in sessions.iter().enumerate() {
        print(session + 1, 0, store.open(*fuse));
        for (index, call) in calls.iter().enumerate() {
            print(session + 1, index + 1, store.call(*call));
        }
    }
    lines
}

/// "Whole example: session 1, fuse 3: begin, begin, visit 1 adds -200 to cell 0, hands it to 2, abort
/// 1, commit 2. Session 2, no fuse: read 0."
pub fn example(fuse: u32) -> Vec<Session> {
    let calls = vec![
        Call::Begin,
        Call::Begin,
        Call::Change { visit: 1, cell: 0, amount: -200 },
        Call::HandOver { giver: 1, receiver: 2, cell: 0 },
        Call::Abort { visit: 1 },
        Call::Commit { visit: 2 },
    ];
    vec![
        Session { fuse: Some(fuse), calls },
        Session { fuse: None, calls: vec![Call::Read { cell: 0 }] },
    ]
}
