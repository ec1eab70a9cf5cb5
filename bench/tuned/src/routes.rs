//! A route's questions in one call (document 02, 2026-06).
//!
//! The record is tested once: a question leaves a well-formed record well
//! formed.

use crate::answer::Answer;
use crate::check::Check;
use crate::record::{checked_mut, N};
use crate::refusal;
use crate::step::{ask_at, asked_row};
use crate::word::Word;

/// Most numbers of a route.
pub const MOST_QUESTIONS: usize = 64;
/// Words of an outcome.
pub const PLACE_WORDS: usize = 6;

/// Asks the numbers at a hub, one after the other; an outcome for each. They
/// may be carried otherwise than the record is.
pub fn route<C: Check, W: Word, V: Word>(
    words: &mut [W],
    hub: u32,
    numbers: &[V],
    outcomes: &mut [V],
) -> Result<(), u32> {
    let record = checked_mut::<C, W>(words)?;
    if numbers.len() > MOST_QUESTIONS {
        return Err(refusal::ROUTE_LONG);
    }
    if outcomes.len() / PLACE_WORDS < numbers.len() {
        return Err(refusal::PLACES_SHORT);
    }
    let row = if hub < record[N].get() {
        asked_row(record, hub)
    } else {
        Err(refusal::NO_HUB)
    };
    let places = outcomes.chunks_exact_mut(PLACE_WORDS);
    for (place, number) in places.zip(numbers) {
        let outcome = row.and_then(|row| ask_at(record, hub, &row, number.get()));
        for (word, value) in place.iter_mut().zip(outcome_words(outcome)) {
            *word = V::of(value);
        }
    }
    Ok(())
}

/// The refusal number, 0 for none, and the answer's five words.
fn outcome_words(outcome: Result<Answer, u32>) -> [u32; PLACE_WORDS] {
    match outcome {
        Ok(answer) => {
            let [kind, hub, number, ticket, hops] = answer.words();
            [0, kind, hub, number, ticket, hops]
        }
        Err(refused) => [refused, 0, 0, 0, 0, 0],
    }
}
