//! The calls on bytes, as the C boundary has them (document 01, 'Reading the
//! ring'), and the roll call, which C has since document 02's 2026-07: four
//! bytes a word, lowest first. The office sheet's, those with cards and the
//! route's are in files of their own.

use crate::queries::{owner, roll_call};
use crate::record::RECORD_WORDS;
use crate::refusal;
use crate::step::{fresh, fresh_by, step};

mod cards;
mod routes;
mod sheet;

pub use cards::{ring_fresh_by_cards, ring_fresh_cards, ring_offer, ring_step_cards};
pub use routes::{ring_route, OUTCOME_BYTES};
pub use sheet::{give_hubs, give_text, ring_sheet_read, ring_sheet_write, COUNTS_BYTES};

/// Nothing was refused.
pub const NO_REFUSAL: u32 = 0;
/// Bytes of a step's answer: five words.
pub const ANSWER_BYTES: usize = 20;
/// Bytes of an owner query's answer: one word.
pub const OWNER_BYTES: usize = 4;
/// Bytes of a roll call's length: one word.
pub const LENGTH_BYTES: usize = 4;

/// Reads at most `limit` whole words; one to three bytes left over are not
/// read.
fn words_of(bytes: &[u8], limit: usize) -> Vec<u32> {
    bytes
        .chunks_exact(4)
        .take(limit)
        .map(|four| u32::from_le_bytes([four[0], four[1], four[2], four[3]]))
        .collect()
}

/// Writes the words at the start of `bytes`; what lies past them stays.
fn write_words(bytes: &mut [u8], words: &[u32]) {
    for (four, word) in bytes.chunks_exact_mut(4).zip(words) {
        four.copy_from_slice(&word.to_le_bytes());
    }
}

/// A step. An output that is too short is 17, 'asked first'; no tally is
/// passed.
pub fn ring_step(words: &mut [u8], operation: u32, x: u32, y: u32, out: &mut [u8]) -> u32 {
    if out.len() < ANSWER_BYTES {
        return refusal::OUTPUT_SHORT;
    }
    let mut record = words_of(words, RECORD_WORDS);
    match step(&mut record, operation, x, y) {
        Ok(answer) => {
            write_words(words, &record);
            write_words(out, &answer.words());
            NO_REFUSAL
        }
        Err(number) => number,
    }
}

/// An owner query; the hub is written as one word.
pub fn ring_owner(words: &[u8], key: u32, out: &mut [u8]) -> u32 {
    if out.len() < OWNER_BYTES {
        return refusal::OUTPUT_SHORT;
    }
    match owner(&words_of(words, RECORD_WORDS), key) {
        Ok(node) => {
            write_words(out, &[node]);
            NO_REFUSAL
        }
        Err(number) => number,
    }
}

/// A roll call: its hubs, one word each, and how many they are. A `length`
/// that is too short is 17, 'asked first'; the roll's own 17 comes last.
pub fn ring_roll(words: &[u8], hub: u32, roll: &mut [u8], length: &mut [u8]) -> u32 {
    if length.len() < LENGTH_BYTES {
        return refusal::OUTPUT_SHORT;
    }
    let mut places = words_of(roll, usize::MAX);
    match roll_call(&words_of(words, RECORD_WORDS), hub, &mut places) {
        Ok(count) => {
            write_words(roll, &places[..count]);
            write_words(length, &[count as u32]);
            NO_REFUSAL
        }
        Err(number) => number,
    }
}

/// Founding on bytes. Document 01 exports step and owner only; this one and
/// the next let tests found a ring in the same form.
pub fn ring_fresh(words: &mut [u8], identifiers: &[u8]) -> u32 {
    founding(words, identifiers, fresh)
}

/// Founding on bytes by the hub that the caller names.
pub fn ring_fresh_by(words: &mut [u8], identifiers: &[u8], founder: u32) -> u32 {
    founding(words, identifiers, |record, names| {
        fresh_by(record, names, founder)
    })
}

/// Either form of founding.
fn founding(
    words: &mut [u8],
    identifiers: &[u8],
    found: impl Fn(&mut [u32], &[u32]) -> Result<(), u32>,
) -> u32 {
    let mut record = words_of(words, RECORD_WORDS);
    match found(&mut record, &words_of(identifiers, usize::MAX)) {
        Ok(()) => {
            write_words(words, &record);
            NO_REFUSAL
        }
        Err(number) => number,
    }
}
