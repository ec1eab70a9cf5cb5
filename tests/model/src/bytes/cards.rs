//! The calls with cards on bytes (document 02, 2026-04): record and cards in
//! four bytes a word, lowest first.

use super::{words_of, write_words, ANSWER_BYTES, NO_REFUSAL};
use crate::cards::{fresh_by_cards, fresh_cards, offer, step_cards, CARD_SLICE_WORDS};
use crate::record::RECORD_WORDS;
use crate::refusal::OUTPUT_SHORT;

/// Founding with cards.
pub fn ring_fresh_cards(words: &mut [u8], cards: &mut [u8], identifiers: &[u8]) -> u32 {
    let identifiers = words_of(identifiers, usize::MAX);
    on_words(words, cards, |record, cards| {
        fresh_cards(record, cards, &identifiers)
    })
}

/// Founding with cards by the hub that the caller names.
pub fn ring_fresh_by_cards(
    words: &mut [u8],
    cards: &mut [u8],
    identifiers: &[u8],
    founder: u32,
) -> u32 {
    let identifiers = words_of(identifiers, usize::MAX);
    on_words(words, cards, |record, cards| {
        fresh_by_cards(record, cards, &identifiers, founder)
    })
}

/// A step with cards. An output that is too short is 17, asked first.
pub fn ring_step_cards(
    words: &mut [u8],
    cards: &mut [u8],
    operation: u32,
    x: u32,
    y: u32,
    out: &mut [u8],
) -> u32 {
    if out.len() < ANSWER_BYTES {
        return OUTPUT_SHORT;
    }
    on_words(words, cards, |record, cards| {
        let answer = step_cards(record, cards, operation, x, y)?;
        write_words(out, &answer.words());
        Ok(())
    })
}

/// An offer. The record is only read.
pub fn ring_offer(words: &[u8], cards: &mut [u8], machine: u32, revision: u32, price: u32) -> u32 {
    on_words(&mut words.to_vec(), cards, |record, cards| {
        offer(record, cards, machine, revision, price)
    })
}

/// A call on the words of both; they are written back if it is accepted.
fn on_words(
    words: &mut [u8],
    cards: &mut [u8],
    call: impl FnOnce(&mut [u32], &mut [u32]) -> Result<(), u32>,
) -> u32 {
    let mut record = words_of(words, RECORD_WORDS);
    let mut kept = words_of(cards, CARD_SLICE_WORDS);
    match call(&mut record, &mut kept) {
        Ok(()) => {
            write_words(words, &record);
            write_words(cards, &kept);
            NO_REFUSAL
        }
        Err(number) => number,
    }
}
