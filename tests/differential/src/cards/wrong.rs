//! Faults planted in front of the engine's calls with cards.

mod asked;
mod foundings;
mod moves;
mod offers;
mod slices;

use ring_model::bytes::NO_REFUSAL;
use ring_model::cards::{CARD_SLICE_WORDS, CARD_WORDS, FIRST_CARD, FIRST_MEMBER};
use ring_model::record::State;

use super::calls::{CardCalls, ENGINE_CARDS};
use crate::calls::{words_of, Calls, ENGINE};
use crate::engine;
use crate::faults::one_in;

/// One call in so many shows a seldom fault.
const SELDOM: u64 = 200;

/// What is wrong, the part that must see it, and the engine.
type Wrong = (&'static str, &'static str, Calls);

/// All of them.
pub fn faults() -> Vec<Wrong> {
    let with = |cards| Calls { cards, ..ENGINE };
    let step = |step| with(CardCalls { step, ..ENGINE_CARDS });
    let offer = |offer| with(CardCalls { offer, ..ENGINE_CARDS });
    let fresh = |fresh| with(CardCalls { fresh, ..ENGINE_CARDS });
    let fresh_by = |fresh_by| with(CardCalls { fresh_by, ..ENGINE_CARDS });
    let mut all = vec![("without cards the step answers otherwise", "cards", other_alone())];
    all.extend(moves::STEPS.map(|(name, part, call)| (name, part, step(call))));
    all.extend(asked::STEPS.map(|(name, part, call)| (name, part, step(call))));
    all.extend(slices::STEPS.map(|(name, call)| (name, "damaged_cards", step(call))));
    all.extend(asked::OFFERS.map(|(name, part, call)| (name, part, offer(call))));
    all.extend(offers::OFFERS.map(|(name, part, call)| (name, part, offer(call))));
    all.extend(foundings::UNNAMED.map(|(name, call)| (name, "card_edges", fresh(call))));
    all.extend(foundings::NAMED.map(|(name, call)| (name, "card_edges", fresh_by(call))));
    all
}

/// Calls that are made as the wrong ones are, and are not wrong.
pub fn same() -> Calls {
    let cards = CardCalls { step: slices::same, offer: offers::same, ..ENGINE_CARDS };
    Calls { cards, ..ENGINE }
}

/// A step without cards that differs now and then; the one with cards does not.
fn other_alone() -> Calls {
    Calls {
        step: |words, operation, x, y, out| {
            let code = engine::step(words, operation, x, y, out);
            if code == NO_REFUSAL && one_in(SELDOM) {
                out[4] ^= 1;
            }
            code
        },
        ..ENGINE
    }
}

/// The words of a card in a slice.
fn card(slice: &mut [u32], place: usize) -> &mut [u32] {
    &mut slice[FIRST_CARD + CARD_WORDS * place..][..CARD_WORDS]
}

/// How many cards a slice keeps, or has room for.
fn count(slice: &[u32]) -> usize {
    (slice[0] as usize).min((CARD_SLICE_WORDS - FIRST_CARD) / CARD_WORDS)
}

/// The place of a machine's card.
fn place(slice: &[u32], machine: u32) -> Option<usize> {
    (0..count(slice)).find(|&place| slice[FIRST_CARD + CARD_WORDS * place] == machine)
}

/// The hubs whose words are 1.
fn members(slice: &[u32]) -> Vec<u32> {
    (0..64).filter(|&hub| slice[FIRST_MEMBER + hub as usize] == 1).collect()
}

/// The identifiers of a record; none, if it is none.
fn identifiers(words: &[u8]) -> Vec<u32> {
    let rows = State::read(&words_of(words)).map_or(Vec::new(), |state| state.rows);
    rows.iter().map(|row| row.identifier).collect()
}

/// A refused call that leaves a mark in the first byte of what it was lent.
pub fn mark_if_refused(code: u32, lent: &mut [u8]) -> u32 {
    if let (true, Some(byte)) = (code != NO_REFUSAL, lent.first_mut()) {
        *byte ^= 1;
    }
    code
}
