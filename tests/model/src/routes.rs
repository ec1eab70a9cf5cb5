//! A route's questions in one call (document 02, 2026-06): a list of numbers
//! that is asked at one hub.
//!
//! What it leaves is what its questions leave one after the other, so the call
//! has no rule of its own but what it asks first, the order of its outcomes
//! and their words. What becomes of one number at a hub is in `routing`.

use crate::answer::Answer;
use crate::command::ASK;
use crate::record::State;
use crate::refusal;
use crate::step::step_state;
use crate::tally::Tally;

/// Most numbers in a list.
pub const MAX_NUMBERS: usize = 64;
/// Words of an outcome, and so of a place for one.
pub const OUTCOME_WORDS: usize = 6;

/// What came of one question: 'an answer or a refusal number'.
pub type Outcome = Result<Answer, u32>;

/// Asks the numbers at the hub; each gets an outcome, in its place. Words
/// behind the places written keep their content, and all of them do where the
/// call is refused.
pub fn route(
    words: &mut [u32],
    hub: u32,
    numbers: &[u32],
    outcomes: &mut [u32],
) -> Result<(), u32> {
    asked(words, hub, numbers, outcomes).map(|_| ())
}

/// The same with the tally lent to it. Each question counts there as it does
/// alone, a refused one too; a refused call has none, and counts nothing.
pub fn route_tallied(
    words: &mut [u32],
    hub: u32,
    numbers: &[u32],
    outcomes: &mut [u32],
    tally: &mut Tally,
) -> Result<(), u32> {
    let came = asked(words, hub, numbers, outcomes)?;
    came.iter().for_each(|outcome| tally.count(outcome));
    Ok(())
}

/// The questions of the call in their order: 1, 2, 25, 26. Then the list.
fn asked(
    words: &mut [u32],
    hub: u32,
    numbers: &[u32],
    outcomes: &mut [u32],
) -> Result<Vec<Outcome>, u32> {
    let mut state = State::read(words)?;
    if numbers.len() > MAX_NUMBERS {
        return Err(refusal::ROUTE_LONG);
    }
    // Words that do not make up a place do not count.
    if outcomes.len() / OUTCOME_WORDS < numbers.len() {
        return Err(refusal::PLACES_SHORT);
    }
    let came = one_by_one(&mut state, hub, numbers);
    state.write(words);
    let places = outcomes.chunks_exact_mut(OUTCOME_WORDS);
    for (place, outcome) in places.zip(&came) {
        place.copy_from_slice(&outcome_words(outcome));
    }
    Ok(came)
}

/// The asks of a list in its order, on the typed form. A refused one leaves
/// the state as it was, and the next is asked all the same: where the hub is
/// none, or outside, each question is refused, and the call is not.
pub fn one_by_one(state: &mut State, hub: u32, numbers: &[u32]) -> Vec<Outcome> {
    numbers
        .iter()
        .map(|&number| step_state(state, ASK, hub, number))
        .collect()
}

/// Six words: the number by which it was refused, or 0; then what was
/// answered, or zeros.
pub fn outcome_words(outcome: &Outcome) -> [u32; OUTCOME_WORDS] {
    match *outcome {
        Err(number) => [number, 0, 0, 0, 0, 0],
        Ok(answer) => {
            let [kind, hub, number, ticket, hops] = answer.words();
            [0, kind, hub, number, ticket, hops]
        }
    }
}
