//! Pages redone alone (02, L3): of stores that sessions have left, the 32 pages in random orders and some of
//! them again, wrong lengths and numbers, and stores that no opening takes.

use super::sessions::{formatted, fuse, habits, session};
use crate::arena::{Arena, Outcome};
use crate::bench::{Bench, Failure};
use crate::prng::Rng;
use crate::steps::Step;
use crate::store::{PAGE, RIGHT, ROW, ROWS};

pub fn play(bench: &mut Bench, seed: u64) -> Result<(), Failure> {
    let rng = &mut Rng::new(seed);
    bench.case(|arena| {
        arena.step(Step::Format(formatted(rng)))?;
        let mut habits = habits(rng);
        // Pages whose marks are rows.
        habits.weights[7] = rng.pick(&[1, 8, 20]);
        for _ in 0..1 + rng.below(3) {
            let (fuse, calls) = (fuse(rng), rng.below(120));
            session(rng, arena, &habits, fuse, calls)?;
            for _ in 0..2 {
                arena.step(Step::RedoPages(order(rng)))?;
            }
            lent(rng, arena)?;
        }
        for _ in 0..2 {
            damage(rng, arena)?;
            arena.step(Step::RedoPages(order(rng)))?;
        }
        Ok(())
    })?;
    Ok(())
}

/// All 32 pages in a random order, often some of them again; now and then a few pages only.
pub fn order(rng: &mut Rng) -> Vec<u8> {
    let mut pages: Vec<u8> = (0..32).collect();
    for at in (1..32).rev() {
        pages.swap(at, rng.below(at + 1));
    }
    if rng.chance(1, 8) {
        pages.truncate(1 + rng.below(8));
    }
    for _ in 0..rng.pick(&[0, 1, 5, 32]) {
        pages.insert(rng.below(pages.len() + 1), rng.pick(&pages.clone()));
    }
    pages
}

/// A page with a log and bytes of other lengths, or a number that no page has.
fn lent(rng: &mut Rng, arena: &mut Arena) -> Outcome<()> {
    for _ in 0..3 {
        let near = |rng: &mut Rng, right: usize| rng.pick(&[right, 0, right - 1, right + 1, 2 * right]);
        let (any_log, any_page) = (near(rng, RIGHT.log), near(rng, PAGE));
        let (log, page) = rng.pick(&[
            (RIGHT.log, PAGE),
            (RIGHT.log, PAGE),
            (any_log, PAGE),
            (RIGHT.log, any_page),
            (any_log, any_page),
        ]);
        let any = rng.byte();
        let number = rng.pick(&[0, 31, 32, 255, any % 32, any % 32, any]);
        arena.step(Step::RedoLent { log, page, number })?;
    }
    Ok(())
}

/// Bytes of log and charts that no opening has checked.
fn damage(rng: &mut Rng, arena: &mut Arena) -> Outcome<()> {
    let rows = arena.paper.stored_rows();
    match rng.below(5) {
        // A row in the log, or just after it, is any bytes: a change, an undo, a row of an unknown kind, or the
        // end.
        0 | 1 => {
            let at = ROW * rng.below((rows + 2).min(ROWS));
            for byte in 1..ROW {
                arena.step(Step::WriteLogByte(at + byte, rng.byte()))?;
            }
            arena.step(Step::WriteLogByte(at, rng.pick(&[2, 4, 8, 0, 255])))?;
        }
        // Marks, bytes 2 and 3 and cells of every page are any bytes, many cells at an end of their range.
        2 => {
            let mut charts = vec![0; RIGHT.charts];
            rng.fill(&mut charts);
            for page in charts.chunks_exact_mut(PAGE) {
                let any = rng.below(rows + 2);
                let mark = rng.pick(&[0, 1, any, 4_096, 65_535]) as u16;
                page[..2].copy_from_slice(&mark.to_le_bytes());
                for cell in page[4..].chunks_exact_mut(4) {
                    if rng.chance(1, 2) {
                        cell.copy_from_slice(&rng.pick(&[i32::MIN, i32::MAX]).to_le_bytes());
                    }
                }
            }
            arena.step(Step::WriteCharts(0, charts))?;
        }
        // A log of any bytes, of which no row is the end.
        3 => {
            let mut log = vec![[0; ROW]; ROWS];
            for row in &mut log {
                rng.fill(row);
                row[0] = rng.pick(&[1, 2, 3, 4, 7, 8, 255]);
            }
            arena.step(Step::WriteLog(log))?;
        }
        // A page's mark is another row.
        _ => {
            let mark = rng.below(rows + 2) as u16;
            arena.step(Step::WriteCharts(PAGE * rng.below(32), mark.to_le_bytes().to_vec()))?;
        }
    }
    Ok(())
}
