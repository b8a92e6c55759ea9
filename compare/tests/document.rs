//! The answers that documents 01 and 02 give: 01's twelve cases, those of its text and its run file's example,
//! the counts of 02's request L1, the whole visits of L2, the begins of L4, the costliest openings of L6, the
//! visits of two bytes of L7, and the reasons of L8.

use compare::adapters::FastStore;
use compare::arena::{Arena, Maker};
use compare::cases::begins::BEGINS;
use compare::cases::costliest::COSTLIEST;
use compare::cases::counts::COUNTS;
use compare::cases::document::Case;
use compare::cases::reasons::REASONS;
use compare::cases::text::TEXT;
use compare::cases::twelve::TWELVE;
use compare::cases::whole_visit_rows::WHOLE_VISIT_ROWS;
use compare::cases::whole_visits::WHOLE_VISITS;
use compare::cover::Cover;
use compare::paper::Paper;
use compare::proved::{relog, ProvedStore};
use compare::public::PublicStore;
use compare::runfile::{example, parse, run, write, Session};
use compare::store::{Call, Store};

fn play(cases: &[Case]) {
    let makers: [Maker; 3] = [
        || Box::new(FastStore::new()),
        || Box::new(ProvedStore::new()),
        || Box::new(PublicStore::new()),
    ];
    for case in cases {
        let mut cover = Cover::default();
        let mut arena = Arena::new(&makers, &mut cover);
        let outcome = (case.play)(&mut arena);
        assert!(outcome.is_ok(), "{}: {outcome:?}", case.name);
    }
}

#[test]
fn twelve_cases() {
    play(&TWELVE);
}

#[test]
fn cases_of_the_text() {
    play(&TEXT);
}

#[test]
fn counts_of_stored_writes() {
    play(&COUNTS);
}

#[test]
fn whole_visits_handed_over() {
    play(&WHOLE_VISITS);
    play(&WHOLE_VISIT_ROWS);
}

#[test]
fn begins_that_are_stored() {
    play(&BEGINS);
}

#[test]
fn costliest_openings() {
    play(&COSTLIEST);
}

#[test]
fn reasons_for_a_rejected_log() {
    play(&REASONS);
}

fn stores() -> [Box<dyn Store>; 4] {
    [
        Box::new(Paper::new()),
        Box::new(FastStore::new()),
        Box::new(ProvedStore::new()),
        Box::new(PublicStore::new()),
    ]
}

/// 01's lines with the counts at the end, which `example/README.md` works out.
const FUSE_3: &str = "1 0 0 0 0 0
1 1 0 1 1 0
1 2 0 2 1 0
1 3 0 3 0 0
1 4 0 4 0 0
1 5 0 5 0 0
1 6 5 0 1 0
2 0 0 3 3 0
2 1 0 0 0 0
";

const FUSE_6: &str = "1 0 0 0 0 0
1 1 0 1 1 0
1 2 0 2 1 0
1 3 0 3 0 0
1 4 0 4 0 0
1 5 0 5 0 0
1 6 0 6 4 0
2 0 0 0 0 0
2 1 0 -200 0 0
";

#[test]
fn lines_of_the_example() {
    for (fuse, lines) in [(3, FUSE_3), (6, FUSE_6)] {
        let file = write(&example(fuse));
        for store in stores().iter_mut() {
            assert_eq!(run(&file, store.as_mut()), lines);
        }
        assert_eq!(relog(&file), lines);
    }
}

/// Two visits begin; visit 1 adds 10 g to cell 0 and 20 g to cell 7, hands all over to visit 2, tries it once
/// more, and visit 2 commits. The second session ends visit 1 and reads cell 7.
const WHOLE_VISIT: [&[u8]; 11] = [
    &[2],
    &[255, 255, 255, 255, 17, 0, 7, 0],
    &[255, 255, 255, 255, 73, 0, 1, 0],
    &[1, 0, 0, 0, 0, 0, 0, 0],
    &[1, 0, 0, 0, 0, 0, 0, 0],
    &[2, 1, 0, 0, 10, 0, 0, 0],
    &[2, 1, 0, 7, 20, 0, 0, 0],
    &[9, 1, 2, 0, 0, 0, 0, 0],
    &[9, 1, 2, 0, 0, 0, 0, 0],
    &[4, 2, 0, 0, 0, 0, 0, 0],
    &[8, 0, 0, 7, 0, 0, 0, 0],
];

const WHOLE_VISIT_LINES: &str = "1 0 0 0 0 0
1 1 0 1 1 0
1 2 0 2 1 0
1 3 0 3 0 0
1 4 0 4 0 0
1 5 0 5 0 0
1 6 13 0 0 0
1 7 0 6 4 0
2 0 0 1 1 0
2 1 0 20 0 0
";

#[test]
fn lines_of_a_whole_visit() {
    let file = WHOLE_VISIT.concat();
    for store in stores().iter_mut() {
        assert_eq!(run(&file, store.as_mut()), WHOLE_VISIT_LINES);
    }
    assert_eq!(relog(&file), WHOLE_VISIT_LINES);
}

/// Code 9 has giver and receiver and no other byte, and no code follows it.
#[test]
fn codes_from_9_on_that_give_15() {
    let right = WHOLE_VISIT.concat();
    let call = 17 + 4 * 8;
    assert_eq!(right[call], 9);
    for (at, byte) in [(0, 10), (0, 11), (0, 255), (3, 1), (3, 7), (4, 1), (5, 1), (5, 128)] {
        let mut file = right.clone();
        file[call + at] = byte;
        assert_eq!(run(&file, &mut Paper::new()), "15\n", "byte {at} is {byte}");
        assert_eq!(relog(&file), "15\n", "byte {at} is {byte}");
    }
    // The same codes with all bytes zero.
    for code in [10, 11, 255] {
        let file = [1, 0, 0, 0, 0, 9, 0, 1, 0, code, 0, 0, 0, 0, 0, 0, 0];
        assert_eq!(run(&file, &mut Paper::new()), "15\n", "code {code}");
        assert_eq!(relog(&file), "15\n", "code {code}");
    }
    // Visits that are not there are no fault of the file.
    let file = [1, 0, 0, 0, 0, 9, 0, 1, 0, 9, 0, 255, 0, 0, 0, 255, 255];
    assert_eq!(run(&file, &mut Paper::new()), "1 0 0 0 0 0\n1 1 9 0 0 0\n");
    assert_eq!(relog(&file), "1 0 0 0 0 0\n1 1 9 0 0 0\n");
}

#[test]
fn files_of_the_example() {
    let folder = concat!(env!("CARGO_MANIFEST_DIR"), "/example");
    for fuse in [3, 6] {
        let file = std::fs::read(format!("{folder}/fuse-{fuse}.run")).unwrap();
        assert_eq!(file, write(&example(fuse)));
    }
}

#[test]
fn run_files_that_give_15() {
    let right = write(&example(3));
    assert_eq!(parse(&right), Some(example(3)));
    let altered = |at: usize, byte: u8| {
        let mut file = right.clone();
        file[at] = byte;
        file
    };
    let body = 1 + 2 * 8;
    let longer = [right.as_slice(), &[0]].concat();
    let far_too_long = [right.as_slice(), &[0; 4_097]].concat();
    let wrong = [
        vec![],
        vec![0],
        vec![33],
        right[..16].to_vec(),
        right[..right.len() - 1].to_vec(),
        longer,
        far_too_long,
        altered(0, 1),
        altered(5, 18),
        altered(7, 5),
        altered(body, 0),
        altered(body, 10),
        altered(body + 1, 1),
        altered(body + 18, 1),
        altered(body + 28, 1),
        altered(body + 34, 1),
        altered(body + 49, 1),
        // High bytes of visits and receivers that begin, change, abort and read do not use.
        altered(body + 6, 1),
        altered(body + 7, 1),
        altered(body + 23, 1),
        altered(body + 39, 1),
        altered(body + 54, 1),
        altered(body + 55, 1),
    ];
    for file in wrong {
        assert_eq!(run(&file, &mut Paper::new()), "15\n", "{file:?}");
        assert_eq!(relog(&file), "15\n", "{file:?}");
    }
}

#[test]
fn run_files_at_their_limits() {
    // 1 + 8 + 510 * 8 = 4,089 bytes; 32 sessions without calls.
    let longest = vec![Session { fuse: None, calls: vec![Call::Begin; 510] }];
    let lines = run(&write(&longest), &mut Paper::new());
    assert_eq!(relog(&write(&longest)), lines);
    assert_eq!(lines.lines().count(), 511);
    assert!(lines.contains("\n1 16 0 16 1 0\n1 17 7 0 0 0\n"));
    let many = vec![Session { fuse: Some(0), calls: vec![] }; 32];
    let lines = run(&write(&many), &mut Paper::new());
    assert_eq!(relog(&write(&many)), lines);
    assert!(lines.ends_with("\n32 0 0 0 0 0\n"));
}

/// A visit of 505 rows, all of them stored: the first by the begin, 64 with each of the rows 66, 130, .. 450,
/// and the last 56 by the force. 504 undo rows and an abort row take it back, over two openings.
#[test]
fn counts_of_a_long_run_file() {
    let change = Call::Change { visit: 1, cell: 0, amount: 1 };
    let calls = [vec![Call::Begin], vec![change; 504], vec![Call::Force]].concat();
    let file = write(&[
        Session { fuse: None, calls },
        Session { fuse: Some(300), calls: vec![] },
        Session { fuse: None, calls: vec![] },
    ]);
    let mut lines = "1 0 0 0 0 0\n1 1 0 1 1 0\n".to_string();
    for row in 2..=505 {
        let stored = if row > 2 && row % 64 == 2 { 64 } else { 0 };
        lines += &format!("1 {row} 0 {row} {stored} 0\n");
    }
    lines += "1 506 0 0 56 0\n2 0 5 0 300 0\n3 0 0 205 205 0\n";
    for store in stores().iter_mut() {
        assert_eq!(run(&file, store.as_mut()), lines);
    }
    assert_eq!(relog(&file), lines);
}

/// Sixteen sessions of sixteen begins, each of which the next opening aborts, then two visits above 255.
#[test]
fn visits_above_255_in_a_run_file() {
    let begins = Session { fuse: None, calls: vec![Call::Begin; 16] };
    let calls = vec![
        Call::Begin,
        Call::Begin,
        Call::Change { visit: 257, cell: 3, amount: -5 },
        Call::Change { visit: 1, cell: 3, amount: -5 },
        Call::HandOver { giver: 257, receiver: 258, cell: 3 },
        Call::Abort { visit: 257 },
        Call::Commit { visit: 258 },
        Call::Read { cell: 3 },
    ];
    let file = write(&[vec![begins; 16], vec![Session { fuse: None, calls }]].concat());
    // The hand-over from 257 to 258: the low bytes at 1 and 2, the high ones at 6 and 7.
    assert_eq!(file[file.len() - 32..][..8], [3, 1, 2, 3, 0, 0, 1, 1]);
    let last = "17 0 0 16 16 0
17 1 0 257 1 0
17 2 0 258 1 0
17 3 0 515 0 0
17 4 9 0 0 0
17 5 0 516 0 0
17 6 0 517 0 0
17 7 0 518 4 0
17 8 0 -5 0 0
";
    let lines = run(&file, &mut Paper::new());
    assert!(lines.ends_with(last), "{lines}");
    for store in stores().iter_mut() {
        assert_eq!(run(&file, store.as_mut()), lines);
    }
    assert_eq!(relog(&file), lines);
}
