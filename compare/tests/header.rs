//! The names of `include/chart_store.h`, as C has them, beside those of the papers: limits and refusal
//! numbers by documents 01 and 02, `chart_ram` as the comparison lends it, how an answer is taken apart, and
//! the texts that docs/FORMAT.md lists.

use compare::header::{constants, parts_of, service_hint, text, Parts};
use compare::numbers::unpacked;
use compare::prng::Rng;
use compare::proved::Ram;
use std::mem::{offset_of, size_of};

/// Document 01's sizes and limits, and 02's (L7: visits). A fuse that is none is that of a run file.
const LIMITS: [(&str, i64); 15] = [
    ("CHART_LOG_LENGTH", 65_536),
    ("CHART_CHARTS_LENGTH", 1_024),
    ("CHART_ROWS", 4_096),
    ("CHART_ROW_LENGTH", 16),
    ("CHART_ROWS_WAITING", 64),
    ("CHART_CELLS", 224),
    ("CHART_PAGES", 32),
    ("CHART_PAGE_LENGTH", 32),
    ("CHART_CELLS_PER_PAGE", 7),
    ("CHART_VISITS", 65_535),
    ("CHART_ACTIVE_VISITS", 16),
    ("CHART_SCOPES", 64),
    ("CHART_FORMAT_GRAMS", 1_000_000),
    ("CHART_STORED_GRAMS", 200_000_000),
    ("CHART_NO_FUSE", 4_294_967_295),
];

/// Document 01's table of refusals, with the numbers that 02's L8 adds; 15 is of run files alone.
const REFUSALS: [(&str, i64); 17] = [
    ("CHART_DONE", 0),
    ("CHART_WRONG_LENGTH", 1),
    ("CHART_OUT_OF_RANGE", 2),
    ("CHART_WRONG_BYTES", 3),
    ("CHART_BAD_PAGE", 4),
    ("CHART_CLOSED", 5),
    ("CHART_VISITS_USED_UP", 6),
    ("CHART_TOO_MANY_ACTIVE", 7),
    ("CHART_NO_ROOM", 8),
    ("CHART_NOT_ACTIVE", 9),
    ("CHART_NO_SUCH_CELL", 10),
    ("CHART_SCOPES_USED_UP", 11),
    ("CHART_SAME_VISIT", 12),
    ("CHART_HOLDS_NONE", 13),
    ("CHART_NO_SUCH_PAGE", 14),
    ("CHART_BREAKS_RULE", 16),
    ("CHART_OVER_LIMIT", 17),
];

/// What the comparison lends as `chart_ram`.
const LAYOUT: [(&str, usize); 12] = [
    ("chart_ram", size_of::<Ram>()),
    ("chart_ram.head", offset_of!(Ram, head)),
    ("chart_ram.visits", offset_of!(Ram, visits)),
    ("chart_ram.scopes", offset_of!(Ram, scopes)),
    ("chart_ram.tail", offset_of!(Ram, tail)),
    ("chart_ram.copy", offset_of!(Ram, copy)),
    ("chart_ram.head[0]", 4),
    ("chart_ram.visits[0]", 2),
    ("chart_ram.scopes[0]", 2),
    ("chart_ram.tail[0]", 1),
    ("chart_ram.copy[0]", 1),
    ("chart_answer", 8),
];

#[test]
fn constants_and_layout_are_those_of_the_papers() {
    let layout = LAYOUT.map(|(name, number)| (name, number as i64));
    let expected = [&LIMITS[..], &REFUSALS[..], &layout[..]].concat();
    assert_eq!(constants(), expected);
}

/// The four functions take every bit of an answer, each its own.
#[test]
fn answers_are_taken_apart() {
    let mut rng = Rng::new(1);
    let drawn = (0..1_000).map(|_| rng.draw());
    let single = (0..64).map(|bit| 1 << bit);
    for packed in drawn.chain(single).chain([0, u64::MAX]) {
        let answer = unpacked(packed);
        let expected = Parts {
            number: i32::from(answer.number),
            value: answer.value as i32,
            rows: u32::from(answer.writes.rows),
            pages: u32::from(answer.writes.pages),
        };
        assert_eq!(parts_of(packed), expected, "{packed:#x}");
    }
}

/// The lines of the tables of docs/FORMAT.md with the heading, each as the cells of the table.
fn table(heading: &str) -> Vec<Vec<&'static str>> {
    let paper = include_str!("../../docs/FORMAT.md");
    let found = paper.split_once(&format!("\n### {heading}\n")).expect("the heading is there").1;
    let section = found.split("\n#").next().unwrap_or(found);
    let lines = section.lines().filter(|line| line.starts_with("| ")).skip(1);
    lines.map(|line| line.trim_matches('|').split('|').map(|cell| cell.trim()).collect()).collect()
}

#[test]
fn texts_are_those_of_the_format() {
    let (texts, hints) = (table("Refusal numbers"), table("Hints for service staff"));
    assert_eq!((texts.len(), hints.len()), (REFUSALS.len(), 3));
    for number in -1..300 {
        let said = |table: &[Vec<&'static str>], column: usize| {
            let line = table.iter().find(|line| line[0] == number.to_string());
            line.map(|line| line[column].trim_matches('"'))
        };
        assert_eq!(text(number), said(&texts, 3).unwrap_or("not a number of this store"));
        assert_eq!(service_hint(number), said(&hints, 2).unwrap_or(""));
    }
}
