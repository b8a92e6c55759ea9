//! The comparison of two orders (02, L5): what differs between them is found, be it an answer, its counts or
//! a copy. All stores agree with the paper in either order, so that no wrong store is needed.

use compare::adapters::FastStore;
use compare::arena::{Maker, StepResult};
use compare::bench::{Bench, Failure};
use compare::cases::two_orders::in_other_order;
use compare::proved::ProvedStore;
use compare::public::PublicStore;
use compare::steps::{abort, begin, change, commit, flush, hand_over, open, read, Step};

const MAKERS: [Maker; 3] =
    [|| Box::new(FastStore::new()), || Box::new(ProvedStore::new()), || Box::new(PublicStore::new())];

/// Steps of a store formatted at zero: those before two steps, the two, and those after them.
struct Case {
    before: Vec<Step>,
    two: [Step; 2],
    after: Vec<Step>,
}

impl Case {
    fn steps(&self) -> Vec<Step> {
        let format = Step::Format(vec![0; 224]);
        [&[format], self.before.as_slice(), &self.two, &self.after].concat()
    }

    /// The result of each step. All answers are 0, those of the two as well.
    fn results(&self, bench: &mut Bench) -> Vec<StepResult> {
        let played = bench.case(|arena| {
            arena.steps(&self.steps())?;
            Ok(arena.results().to_vec())
        });
        let Ok((results, _)) = played else { panic!("the stores differ") };
        assert!(results.iter().all(|result| result.answer.number == 0), "{results:?}");
        results
    }

    /// The values of the answers to the steps after the two.
    fn values(&self) -> Vec<i64> {
        let results = self.results(&mut Bench::new(MAKERS.to_vec()));
        let after = &results[results.len() - self.after.len()..];
        after.iter().map(|result| result.answer.value).collect()
    }

    fn swapped(&self) -> Case {
        let [one, two] = self.two.clone();
        Case { before: self.before.clone(), two: [two, one], after: self.after.clone() }
    }

    /// Compares the two orders.
    fn compared(&self) -> Result<(), Failure> {
        let bench = &mut Bench::new(MAKERS.to_vec());
        let results = self.results(bench);
        in_other_order(bench, &self.steps(), &results, 1 + self.before.len())
    }

    /// The two orders differ at the step of this number, the format's being 1, with this text.
    fn differs(&self, step: usize, text: &str) {
        let failure = self.compared().expect_err("no difference between the two orders is found");
        assert_eq!((failure.difference.step, failure.difference.text.as_str()), (step, text));
        // A report shows the steps up to that one.
        assert_eq!(failure.steps.len(), step);
    }
}

/// Three visits begin; visit 1 adds 70 g to cell 0, visit 2 adds 5 g to `cell` and hands it to visit 3,
/// after or before visit 1 hands cell 0 to visit 2.
fn two_hand_overs(cell: u8) -> Case {
    Case {
        before: vec![open(None), begin(), begin(), begin(), change(1, 0, 70), change(2, cell, 5)],
        two: [hand_over(1, 2, 0), hand_over(2, 3, cell)],
        after: vec![abort(2), commit(3), read(0), open(None)],
    }
}

/// 02 speaks of "different cells". Of one cell visit 3 gets the 70 g as well, or visit 2 keeps them and takes
/// them back, which needs an undo row.
#[test]
fn hand_overs_of_one_cell_differ() {
    let one_cell = two_hand_overs(0);
    assert_eq!(one_cell.values(), [8, 9, 75, 1]);
    assert_eq!(one_cell.swapped().values(), [9, 10, 5, 1]);
    one_cell.differs(10, "with steps 8 and 9 swapped the answer is 0 9 0 0, not 0 8 0 0");
    one_cell.swapped().differs(10, "with steps 8 and 9 swapped the answer is 0 8 0 0, not 0 9 0 0");
}

#[test]
fn hand_overs_of_different_cells_do_not() {
    for cell in [1, 7] {
        let two_cells = two_hand_overs(cell);
        assert_eq!(two_cells.values(), [9, 10, 0, 1]);
        assert!(two_cells.compared().is_ok());
        assert!(two_cells.swapped().compared().is_ok());
    }
}

/// The page that is flushed first has the rows before its mark stored with it.
#[test]
fn counts_alone_that_differ_are_found() {
    let flushes = Case {
        before: vec![open(None), begin(), change(1, 0, 70), change(1, 7, 5), change(1, 7, 5)],
        two: [flush(0), flush(1)],
        after: vec![commit(1)],
    };
    assert_eq!(flushes.values(), flushes.swapped().values());
    flushes.differs(7, "with steps 7 and 8 swapped the answer is 0 0 3 1, not 0 0 1 1");
}

/// The marks of two pages are the rows that changed them last.
#[test]
fn copies_alone_that_differ_are_found() {
    let changes = Case {
        before: vec![open(None), begin()],
        two: [change(1, 0, 70), change(1, 7, 5)],
        after: vec![commit(1), open(None), read(0), read(7)],
    };
    assert_eq!(changes.values(), [4, 0, 70, 5]);
    assert_eq!(changes.swapped().values(), [4, 0, 70, 5]);
    changes.differs(7, "with steps 4 and 5 swapped the opening leaves another copy");
}
