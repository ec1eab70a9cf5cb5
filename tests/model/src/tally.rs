//! The tally of steps by answer kind (document 01, 'Reading the ring').

use crate::answer::Answer;
use crate::step::step;

/// Where refused steps are counted.
pub const REFUSED: usize = 8;

/// Nine counters: answer kinds 0 to 7, then refused.
#[derive(Clone, Copy, Debug, Default, PartialEq, Eq)]
pub struct Tally {
    /// The counters, in that order.
    pub counts: [u64; 9],
}

impl Tally {
    /// Adds 1 to the counter that the outcome of a step belongs to. 'A count
    /// at 18446744073709551615 stays.'
    pub fn count(&mut self, outcome: &Result<Answer, u32>) {
        let which = match outcome {
            Ok(answer) => answer.kind as usize,
            Err(_) => REFUSED,
        };
        self.counts[which] = self.counts[which].saturating_add(1);
    }
}

/// A step with the tally lent to it: 'the one lent thing that a refusal
/// alters'.
pub fn step_tallied(
    words: &mut [u32],
    operation: u32,
    x: u32,
    y: u32,
    tally: &mut Tally,
) -> Result<Answer, u32> {
    let outcome = step(words, operation, x, y);
    tally.count(&outcome);
    outcome
}
