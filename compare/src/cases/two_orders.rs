//! Two single hand-overs of different cells in either order (02, L5). Sessions lead to two hand-overs that
//! follow one another and are both accepted while power holds; the same steps are taken with the two in the
//! other order. All answers must be the same, place by place, and after each ready opening the copy. The
//! fuses let both of their rows land, one of them, or none, and a full tail may be stored before the first
//! row or between the two. Where power fails in that, both orders are refused alike.

use super::sessions::{formatted, fuse, habits, next_call, session, work, Habits};
use crate::arena::{Arena, Difference, Outcome, StepResult};
use crate::bench::{Bench, Failure};
use crate::cover::Cover;
use crate::paper::Ledger;
use crate::prng::Rng;
use crate::report;
use crate::steps::{begin, force, open, Step};
use crate::store::{Call, TAIL_ROWS};

/// A fuse that no case uses up.
const LONG: u32 = 1_000_000;

/// Two hand-overs that may follow what came before.
struct Pair {
    one: Call,
    two: Call,
    /// How many rows wait before the two.
    waiting: usize,
    /// How many stored writes it takes until all rows before the two are stored.
    writes: u32,
}

pub fn play(bench: &mut Bench, seed: u64) -> Result<(), Failure> {
    let rng = &mut Rng::new(seed);
    let habits = busy(rng);
    let (pair, before) = bench.case(|arena| lead_to(rng, arena, &habits, filled(seed)))?;
    let opening = before.iter().rposition(|step| matches!(step, Step::Open(_)));
    let (Some(pair), Some(opening)) = (pair, opening) else { return Ok(()) };
    for left in fuses(rng, &pair) {
        let mut start = before.clone();
        start[opening] = open(Some(left));
        let first = start.len();
        let (results, steps) = bench.case(|arena| {
            arena.steps(&start)?;
            arena.steps(&[Step::Call(pair.one), Step::Call(pair.two)])?;
            later(rng, arena, &habits)?;
            Ok(arena.results().to_vec())
        })?;
        note(&mut bench.cover, &pair, &steps[first..], &results[first..]);
        in_other_order(bench, &steps, &results, first)?;
    }
    Ok(())
}

/// Takes steps that gave this once more, the one at `first` and the one after it swapped. They must give the
/// same, place by place.
pub fn in_other_order(
    bench: &mut Bench,
    steps: &[Step],
    results: &[StepResult],
    first: usize,
) -> Result<(), Failure> {
    let mut swapped = steps.to_vec();
    swapped.swap(first, first + 1);
    let (others, mut steps) = bench.case(|arena| {
        arena.steps(&swapped)?;
        Ok(arena.results().to_vec())
    })?;
    let Some((step, text)) = difference(results, &others) else { return Ok(()) };
    steps.truncate(step);
    let text = format!("with steps {} and {} swapped {text}", first + 1, first + 2);
    Err(Failure { steps, difference: Difference { step, text } })
}

/// The first step whose result is another in the swapped order, and what differs.
fn difference(results: &[StepResult], swapped: &[StepResult]) -> Option<(usize, String)> {
    let mut places = (1..).zip(results.iter().zip(swapped));
    let (step, (result, other)) = places.find(|(_, (result, other))| result != other)?;
    let text = if result.answer == other.answer {
        "the opening leaves another copy".into()
    } else {
        let (result, other) = (report::answer(result.answer), report::answer(other.answer));
        format!("the answer is {other}, not {result}")
    };
    Some((step, text))
}

/// Visits that change and hand over cells, and seldom end, so that there are changes of two cells to hand
/// over.
fn busy(rng: &mut Rng) -> Habits {
    let mut habits = habits(rng);
    habits.visits = habits.visits.max(3);
    if habits.cells.len() < 2 {
        habits.cells = vec![0, rng.pick(&[1, 7, 223])];
    }
    habits.weights[..6].copy_from_slice(&[8, 20, 8, 1, 1, 1]);
    habits
}

/// How many rows wait before the two, if that does not go by chance: with one less than a full tail the
/// second stores the row of the first, with a full one the first stores the rows before it.
fn filled(seed: u64) -> Option<usize> {
    match seed % 8 {
        1 | 3 | 5 => Some(TAIL_ROWS - 1),
        7 => Some(TAIL_ROWS),
        _ => None,
    }
}

/// Sessions up to two hand-overs that would both be accepted; none where there are no such two.
fn lead_to(
    rng: &mut Rng,
    arena: &mut Arena,
    habits: &Habits,
    filled: Option<usize>,
) -> Outcome<Option<Pair>> {
    arena.step(Step::Format(formatted(rng)))?;
    if rng.chance(1, 2) {
        let (fuse, calls) = (fuse(rng), rng.below(40));
        session(rng, arena, habits, fuse, calls)?;
    }
    arena.step(open(Some(LONG)))?;
    let calls = rng.pick(&[10, 30, 90]);
    work(rng, arena, habits, calls)?;
    if let Some(rows) = filled {
        fill(rng, arena, habits, rows)?;
    }
    let Some((one, two)) = pair(rng, arena.ledger()) else { return Ok(None) };
    let waiting = arena.paper.tail.len();
    let writes = LONG - arena.paper.fuse.unwrap_or(LONG) + waiting as u32;
    Ok(Some(Pair { one, two, waiting, writes }))
}

/// Changes and hand-overs until so many rows wait.
fn fill(rng: &mut Rng, arena: &mut Arena, habits: &Habits, rows: usize) -> Outcome<()> {
    while arena.ledger().active.len() < 3 {
        arena.step(begin())?;
    }
    // Each of these calls adds one row or none, so that no number of waiting rows is passed over.
    let weights = [0, 20, 8, 1, 0, 0, 0, 0, 0];
    let habits = Habits { weights, cells: habits.cells.clone(), ..*habits };
    while arena.paper.tail.len() != rows {
        let call = next_call(rng, &habits, arena.ledger());
        arena.step(Step::Call(call))?;
    }
    Ok(())
}

/// Two hand-overs of different cells, each of a change that its giver holds. The receiver of one may be the
/// giver of the other, and both may have one giver or one receiver.
fn pair(rng: &mut Rng, ledger: &Ledger) -> Option<(Call, Call)> {
    let held: Vec<(u16, u8)> =
        ledger.open_changes().map(|change| (change.holder, change.cell)).collect();
    if held.is_empty() || ledger.active.len() < 2 {
        return None;
    }
    let (giver, cell) = rng.pick(&held);
    let others: Vec<(u16, u8)> = held.into_iter().filter(|(_, other)| *other != cell).collect();
    if others.is_empty() {
        return None;
    }
    let (second, other) = rng.pick(&others);
    let mut receiver = |giver: u16| {
        let active: Vec<u16> = ledger.active.iter().copied().filter(|visit| *visit != giver).collect();
        rng.pick(&active)
    };
    let one = Call::HandOver { giver, receiver: receiver(giver), cell };
    let two = Call::HandOver { giver: second, receiver: receiver(second), cell: other };
    Some((one, two))
}

/// The session of the two without a cut, with fuses that are used up around their rows, and with one that
/// is used up where one of the two stores a full tail.
fn fuses(rng: &mut Rng, pair: &Pair) -> Vec<u32> {
    let mut fuses = vec![LONG, pair.writes, pair.writes + 1, pair.writes + 2, pair.writes + 3];
    if pair.waiting + 1 >= TAIL_ROWS {
        fuses.push(pair.writes - 1 - rng.below(pair.waiting) as u32);
    }
    fuses
}

/// What comes after the two: a force at once, an opening at once, or calls first; then sessions that are cut
/// themselves, with arbitrary RAM and wrong lengths.
fn later(rng: &mut Rng, arena: &mut Arena, habits: &Habits) -> Outcome<()> {
    match rng.below(3) {
        0 => arena.steps(&[force()])?,
        1 => {}
        _ => {
            let calls = rng.below(30);
            work(rng, arena, habits, calls)?;
        }
    }
    for _ in 0..1 + rng.below(3) {
        let (fuse, calls) = (fuse(rng), rng.below(30));
        session(rng, arena, habits, fuse, calls)?;
    }
    arena.steps(&[open(None)])
}

/// What became of the two, whose answers come first.
fn note(cover: &mut Cover, pair: &Pair, steps: &[Step], results: &[StepResult]) {
    let (one, two) = (results[0].answer, results[1].answer);
    let accepted = one.number == 0 && two.number == 0;
    // What one of the two stores is a full tail.
    cover.shape_if(accepted && one.writes.rows > 0, "two orders, a full tail stored before the two");
    cover.shape_if(accepted && two.writes.rows > 0, "two orders, a full tail stored between the two");
    cover.shape_if(one.number == 5, "two orders, the first refused in storing a full tail");
    let second = one.number == 0 && two.number == 5;
    cover.shape_if(second, "two orders, the second refused in storing a full tail");
    if accepted {
        note_found(cover, pair, steps, results);
    }
}

/// How many rows of the two the next opening finds, and whether power failed before it.
fn note_found(cover: &mut Cover, pair: &Pair, steps: &[Step], results: &[StepResult]) {
    let opens = |at: &usize| matches!(steps[*at], Step::Open(_)) && results[*at].answer.number != 1;
    let opening = (0..steps.len()).find(opens).unwrap_or(steps.len());
    let answers = || results[..opening].iter().map(|result| result.answer);
    // The rows that waited before the two were stored first.
    let stored: usize = answers().map(|answer| usize::from(answer.writes.rows)).sum();
    let found = stored.saturating_sub(pair.waiting);
    let power_held = answers().all(|answer| answer.number != 5);
    cover.shape_if(found >= 2, "two orders, both rows found by an opening");
    cover.shape_if(found == 1, "two orders, just one of the rows found by an opening");
    cover.shape_if(found == 1 && power_held, "two orders, just one row found without a power failure");
    cover.shape_if(found == 0, "two orders, none of the rows found by an opening");
}
