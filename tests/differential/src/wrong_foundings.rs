//! Faults planted in front of the engine's foundings: who founds, and what is asked in which order.

use ring_model::bytes::NO_REFUSAL;
use ring_model::refusal::{
    IDENTIFIERS_REPEAT, IDENTIFIER_COUNT, NO_FOUNDER, NO_SUCH_NODE, RECORD_SHORT,
};

use crate::calls::words_of;
use crate::engine;

type Fresh = fn(&mut [u8], &[u8]) -> u32;
type FreshBy = fn(&mut [u8], &[u8], u32) -> u32;

/// Wrong foundings by the smallest identifier: what is wrong, the part that must see it, the call.
pub const UNNAMED: [(&str, &str, Fresh); 6] = [
    ("repeated identifiers pass", "founding", repeated_pass),
    ("left-over bytes are read", "founding", reads_left_over),
    ("the first hub founds", "founding", first_founds),
    ("the first hub founds, in a run", "runs", first_founds),
    ("the largest identifier founds", "founding", largest_founds),
    ("identifiers are compared with a sign", "founding", signed_founds),
];

/// Wrong foundings by the hub that is named.
pub const NAMED: [(&str, &str, FreshBy); 11] = [
    ("a founder that is named is passed over", "founding", smallest_founds),
    ("a founder that is named is passed over, in a run", "runs", smallest_founds),
    ("a founder equal to the hub count is the last hub", "founding", count_founds),
    ("a founder equal to the hub count passes", "founding", count_passes),
    ("4 for a founder that is none", "founding", no_hub),
    ("18 is asked before 14", "founding", asked_before_14),
    ("18 is asked before 13", "founding", asked_before_13),
    ("18 is asked before 1", "founding", asked_before_1),
    ("a founder's lowest byte alone is read", "founding", lowest_byte),
    ("a founder that is none is written", "founding", writes_none),
    ("left-over bytes are read, with a founder", "founding", reads_left_over_by),
];

fn repeated_pass(words: &mut [u8], identifiers: &[u8]) -> u32 {
    match engine::fresh(words, identifiers) {
        IDENTIFIERS_REPEAT => NO_REFUSAL,
        code => code,
    }
}

fn reads_left_over(words: &mut [u8], identifiers: &[u8]) -> u32 {
    engine::fresh(words, &with_left_over(identifiers))
}

/// Left-over bytes made a whole identifier.
pub fn with_left_over(identifiers: &[u8]) -> Vec<u8> {
    let mut longer = identifiers.to_vec();
    longer.resize(identifiers.len().div_ceil(4) * 4, 0);
    longer
}

fn first_founds(words: &mut [u8], identifiers: &[u8]) -> u32 {
    engine::fresh_by(words, identifiers, 0)
}

fn largest_founds(words: &mut [u8], identifiers: &[u8]) -> u32 {
    least_founds(words, identifiers, |identifier| u32::MAX - identifier)
}

fn signed_founds(words: &mut [u8], identifiers: &[u8]) -> u32 {
    least_founds(words, identifiers, |identifier| identifier as i32)
}

/// Founds by the hub that is least in another order.
fn least_founds<T: Ord>(words: &mut [u8], identifiers: &[u8], order: impl Fn(u32) -> T) -> u32 {
    let names = words_of(identifiers);
    let least = (0..names.len()).min_by_key(|&hub| order(names[hub])).unwrap_or(0);
    engine::fresh_by(words, identifiers, least as u32)
}

fn smallest_founds(words: &mut [u8], identifiers: &[u8], founder: u32) -> u32 {
    match engine::fresh_by(words, identifiers, founder) {
        NO_REFUSAL => engine::fresh(words, identifiers),
        code => code,
    }
}

/// How many hubs there are.
fn count(identifiers: &[u8]) -> u32 {
    identifiers.len() as u32 / 4
}

fn count_founds(words: &mut [u8], identifiers: &[u8], founder: u32) -> u32 {
    let above = u32::from(founder == count(identifiers));
    engine::fresh_by(words, identifiers, founder.saturating_sub(above))
}

fn count_passes(words: &mut [u8], identifiers: &[u8], founder: u32) -> u32 {
    match engine::fresh_by(words, identifiers, founder) {
        NO_FOUNDER if founder == count(identifiers) => NO_REFUSAL,
        code => code,
    }
}

fn no_hub(words: &mut [u8], identifiers: &[u8], founder: u32) -> u32 {
    match engine::fresh_by(words, identifiers, founder) {
        NO_FOUNDER => NO_SUCH_NODE,
        code => code,
    }
}

fn asked_before_14(words: &mut [u8], identifiers: &[u8], founder: u32) -> u32 {
    asked_before(IDENTIFIERS_REPEAT, words, identifiers, founder)
}

fn asked_before_13(words: &mut [u8], identifiers: &[u8], founder: u32) -> u32 {
    asked_before(IDENTIFIER_COUNT, words, identifiers, founder)
}

fn asked_before_1(words: &mut [u8], identifiers: &[u8], founder: u32) -> u32 {
    asked_before(RECORD_SHORT, words, identifiers, founder)
}

/// Asks 18 before this number, and before no other.
fn asked_before(number: u32, words: &mut [u8], identifiers: &[u8], founder: u32) -> u32 {
    match engine::fresh_by(words, identifiers, founder) {
        code if code == number && founder >= count(identifiers) => NO_FOUNDER,
        code => code,
    }
}

fn lowest_byte(words: &mut [u8], identifiers: &[u8], founder: u32) -> u32 {
    engine::fresh_by(words, identifiers, founder & 0xFF)
}

fn writes_none(words: &mut [u8], identifiers: &[u8], founder: u32) -> u32 {
    let code = engine::fresh_by(words, identifiers, founder);
    if code == NO_FOUNDER {
        words[0] ^= 1;
    }
    code
}

fn reads_left_over_by(words: &mut [u8], identifiers: &[u8], founder: u32) -> u32 {
    engine::fresh_by(words, &with_left_over(identifiers), founder)
}
