//! Runs cases one after the other and adds up what they met.

use crate::arena::{Arena, Difference, Maker, Outcome};
use crate::cover::Cover;
use crate::steps::Step;

pub struct Bench {
    pub makers: Vec<Maker>,
    pub cover: Cover,
    pub cases: u64,
    pub calls: u64,
}

/// A case in which something went wrong.
pub struct Failure {
    pub steps: Vec<Step>,
    pub difference: Difference,
}

impl Bench {
    pub fn new(makers: Vec<Maker>) -> Bench {
        Bench { makers, cover: Cover::default(), cases: 0, calls: 0 }
    }

    /// Plays one case on new stores; gives what `play` gives, and the steps that it took.
    pub fn case<T>(
        &mut self,
        play: impl FnOnce(&mut Arena) -> Outcome<T>,
    ) -> Result<(T, Vec<Step>), Failure> {
        let mut arena = Arena::new(&self.makers, &mut self.cover);
        let outcome = play(&mut arena);
        let calls = arena.calls();
        let steps = arena.into_steps();
        self.cases += 1;
        self.calls += calls;
        self.cover.most("calls", calls as usize);
        match outcome {
            Ok(value) => Ok((value, steps)),
            Err(difference) => Err(Failure { steps, difference }),
        }
    }
}
