//! A route's questions on bytes (document 02, 2026-06): record, numbers and
//! outcomes in four bytes a word, lowest first.

use super::{words_of, write_words, NO_REFUSAL};
use crate::record::RECORD_WORDS;
use crate::routes::{route, OUTCOME_WORDS};

/// Bytes of an outcome.
pub const OUTCOME_BYTES: usize = 4 * OUTCOME_WORDS;

/// A route. It has no 17: 26 says that the output is too short.
pub fn ring_route(words: &mut [u8], hub: u32, numbers: &[u8], outcomes: &mut [u8]) -> u32 {
    let mut record = words_of(words, RECORD_WORDS);
    let numbers = words_of(numbers, usize::MAX);
    let mut places = words_of(outcomes, usize::MAX);
    match route(&mut record, hub, &numbers, &mut places) {
        Ok(()) => {
            write_words(words, &record);
            write_words(outcomes, &places);
            NO_REFUSAL
        }
        Err(number) => number,
    }
}
