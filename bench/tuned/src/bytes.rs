//! The calls for C, on bytes: four a word, lowest first (document 01,
//! 'Reading the ring').
//!
//! Each call is there twice. The plain one carries the words over into an
//! array, steps, and carries them back. The one `in_place` works on the bytes
//! where they are and writes those that change. Both take the way to test.

use crate::check::Check;
use crate::record::RECORD_WORDS;
use crate::refusal;

mod cards;
mod rolls;
mod routes;

pub use cards::{offer, step_cards, BOOK_BYTES};
pub use rolls::roll;
pub use routes::route;

/// Bytes of a step's answer.
pub const ANSWER_BYTES: usize = 20;
/// Bytes of an owner query's answer.
pub const OWNER_BYTES: usize = 4;
/// Bytes of a roll call's length.
pub const LENGTH_BYTES: usize = 4;
/// Bytes of a record.
pub const RECORD_BYTES: usize = 4 * RECORD_WORDS;

/// The words of a record, or of the cards beside it: as many as the bytes have.
fn carried<const WORDS: usize>(bytes: &[u8]) -> [u32; WORDS] {
    let mut words = [0; WORDS];
    for (word, four) in words.iter_mut().zip(bytes.chunks_exact(4)) {
        *word = u32::from_le_bytes([four[0], four[1], four[2], four[3]]);
    }
    words
}

/// Writes words at the start of the bytes; what lies past them stays.
fn carry_back(bytes: &mut [u8], words: &[u32]) {
    for (four, word) in bytes.chunks_exact_mut(4).zip(words) {
        four.copy_from_slice(&word.to_le_bytes());
    }
}

/// The number returned, 0 for none refused.
fn code(outcome: Result<(), u32>) -> u32 {
    outcome.err().unwrap_or(0)
}

/// A step.
pub fn step<C: Check>(bytes: &mut [u8], operation: u32, x: u32, y: u32, out: &mut [u8]) -> u32 {
    if out.len() < ANSWER_BYTES {
        return refusal::OUTPUT_SHORT;
    }
    let Some(record) = bytes.get_mut(..RECORD_BYTES) else {
        return refusal::RECORD_SHORT;
    };
    let mut words = carried::<RECORD_WORDS>(record);
    let outcome = crate::step::<C, _>(&mut words, operation, x, y);
    code(outcome.map(|answer| {
        carry_back(record, &words);
        carry_back(out, &answer.words());
    }))
}

/// An owner query.
pub fn owner<C: Check>(bytes: &[u8], number: u32, out: &mut [u8]) -> u32 {
    if out.len() < OWNER_BYTES {
        return refusal::OUTPUT_SHORT;
    }
    let Some(record) = bytes.get(..RECORD_BYTES) else {
        return refusal::RECORD_SHORT;
    };
    let words = carried::<RECORD_WORDS>(record);
    let outcome = crate::owner::<C, _>(&words, number);
    code(outcome.map(|hub| carry_back(out, &[hub])))
}

/// The calls on the bytes where they are.
pub mod in_place {
    use super::*;

    pub use super::cards::in_place::{offer, step_cards};
    pub use super::rolls::in_place::roll;
    pub use super::routes::in_place::route;

    /// A step.
    pub fn step<C: Check>(
        words: &mut [[u8; 4]],
        operation: u32,
        x: u32,
        y: u32,
        out: &mut [u8],
    ) -> u32 {
        if out.len() < ANSWER_BYTES {
            return refusal::OUTPUT_SHORT;
        }
        let outcome = crate::step::<C, _>(words, operation, x, y);
        code(outcome.map(|answer| carry_back(out, &answer.words())))
    }

    /// An owner query.
    pub fn owner<C: Check>(words: &[[u8; 4]], number: u32, out: &mut [u8]) -> u32 {
        if out.len() < OWNER_BYTES {
            return refusal::OUTPUT_SHORT;
        }
        let outcome = crate::owner::<C, _>(words, number);
        code(outcome.map(|hub| carry_back(out, &[hub])))
    }
}
