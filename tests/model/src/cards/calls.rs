//! The calls that are lent cards: founding, step and offer (document 02,
//! 2026-04), on words.
//!
//! Each works on the typed forms and writes them back only when it is
//! accepted, so a refused call changes nothing.

use super::{Cards, CARD_SLICE_WORDS};
use crate::answer::Answer;
use crate::record::{State, RECORD_WORDS};
use crate::refusal;
use crate::step::{fresh_by, smallest, step_state};
use crate::tally::Tally;

/// Founds a ring and its cards by the hub with the smallest identifier.
pub fn fresh_cards(words: &mut [u32], cards: &mut [u32], identifiers: &[u32]) -> Result<(), u32> {
    fresh_by_cards(words, cards, identifiers, smallest(identifiers))
}

/// Founds a ring and its cards by the hub that the caller names.
pub fn fresh_by_cards(
    words: &mut [u32],
    cards: &mut [u32],
    identifiers: &[u32],
    founder: u32,
) -> Result<(), u32> {
    long_enough(words, cards)?;
    fresh_by(words, identifiers, founder)?;
    Cards::new(identifiers, founder).write(cards);
    Ok(())
}

/// One command with cards lent: the step's questions, then one more.
pub fn step_cards(
    words: &mut [u32],
    cards: &mut [u32],
    operation: u32,
    x: u32,
    y: u32,
) -> Result<Answer, u32> {
    let (mut state, mut typed) = read(words, cards)?;
    let answer = step_typed(&mut state, &mut typed, operation, x, y)?;
    state.write(words);
    typed.write(cards);
    Ok(answer)
}

/// The same on the typed forms. A step that would leave no member is 2, but
/// only after all other questions. After a refusal both are as they were.
pub fn step_typed(
    state: &mut State,
    cards: &mut Cards,
    operation: u32,
    x: u32,
    y: u32,
) -> Result<Answer, u32> {
    let mut after = state.clone();
    let answer = step_state(&mut after, operation, x, y)?;
    if cards.strikes_off_the_last(&answer) {
        return Err(refusal::NOT_WELL_FORMED);
    }
    *state = after;
    cards.feed(&answer);
    Ok(answer)
}

/// A step with cards and a tally lent to it.
pub fn step_cards_tallied(
    words: &mut [u32],
    cards: &mut [u32],
    operation: u32,
    x: u32,
    y: u32,
    tally: &mut Tally,
) -> Result<Answer, u32> {
    let outcome = step_cards(words, cards, operation, x, y);
    tally.count(&outcome);
    outcome
}

/// Offers a card; the record is only read.
pub fn offer(
    words: &[u32],
    cards: &mut [u32],
    machine: u32,
    revision: u32,
    price: u32,
) -> Result<(), u32> {
    let (_, mut typed) = read(words, cards)?;
    typed.offer(machine, revision, price)?;
    typed.write(cards);
    Ok(())
}

/// Asks questions 1 and 2 of a record and its cards, then reads both: each
/// question 'after the record's'.
pub fn read(words: &[u32], cards: &[u32]) -> Result<(State, Cards), u32> {
    long_enough(words, cards)?;
    let state = State::read(words)?;
    let identifiers: Vec<u32> = state.rows.iter().map(|row| row.identifier).collect();
    let cards = Cards::read(cards, &identifiers)?;
    Ok((state, cards))
}

/// Question 1, of the record and then of the cards.
fn long_enough(words: &[u32], cards: &[u32]) -> Result<(), u32> {
    if words.len() < RECORD_WORDS || cards.len() < CARD_SLICE_WORDS {
        return Err(refusal::RECORD_SHORT);
    }
    Ok(())
}
