//! The calls for C that are lent a card slice too. The cards are carried back
//! only where they have changed.

use super::{carried, carry_back, code, ANSWER_BYTES, RECORD_BYTES};
use crate::answer::kind;
use crate::cards::BOOK_WORDS;
use crate::check::Check;
use crate::record::RECORD_WORDS;
use crate::refusal;

/// Bytes of a card slice.
pub const BOOK_BYTES: usize = 4 * BOOK_WORDS;

/// A step that takes the cards along.
pub fn step_cards<C: Check>(
    bytes: &mut [u8],
    cards: &mut [u8],
    operation: u32,
    x: u32,
    y: u32,
    out: &mut [u8],
) -> u32 {
    if out.len() < ANSWER_BYTES {
        return refusal::OUTPUT_SHORT;
    }
    let (Some(record), Some(book)) = (bytes.get_mut(..RECORD_BYTES), cards.get_mut(..BOOK_BYTES))
    else {
        return refusal::RECORD_SHORT;
    };
    let mut words = carried::<RECORD_WORDS>(record);
    let mut kept = carried::<BOOK_WORDS>(book);
    let outcome = crate::step_cards::<C, _>(&mut words, &mut kept, operation, x, y);
    code(outcome.map(|answer| {
        carry_back(record, &words);
        if matches!(answer.kind, kind::ENTERED | kind::GONE) {
            carry_back(book, &kept);
        }
        carry_back(out, &answer.words());
    }))
}

/// An offer.
pub fn offer<C: Check>(
    bytes: &[u8],
    cards: &mut [u8],
    machine: u32,
    revision: u32,
    price: u32,
) -> u32 {
    let (Some(record), Some(book)) = (bytes.get(..RECORD_BYTES), cards.get_mut(..BOOK_BYTES))
    else {
        return refusal::RECORD_SHORT;
    };
    let words = carried::<RECORD_WORDS>(record);
    let mut kept = carried::<BOOK_WORDS>(book);
    let outcome = crate::offer::<C, _>(&words, &mut kept, machine, revision, price);
    code(outcome.map(|changed| {
        if changed {
            carry_back(book, &kept);
        }
    }))
}

/// The calls on the bytes where they are.
pub mod in_place {
    use super::*;

    /// A step that takes the cards along.
    pub fn step_cards<C: Check>(
        words: &mut [[u8; 4]],
        cards: &mut [[u8; 4]],
        operation: u32,
        x: u32,
        y: u32,
        out: &mut [u8],
    ) -> u32 {
        if out.len() < ANSWER_BYTES {
            return refusal::OUTPUT_SHORT;
        }
        let outcome = crate::step_cards::<C, _>(words, cards, operation, x, y);
        code(outcome.map(|answer| carry_back(out, &answer.words())))
    }

    /// An offer.
    pub fn offer<C: Check>(
        words: &[[u8; 4]],
        cards: &mut [[u8; 4]],
        machine: u32,
        revision: u32,
        price: u32,
    ) -> u32 {
        let outcome = crate::offer::<C, _>(words, cards, machine, revision, price);
        code(outcome.map(|_| ()))
    }
}
