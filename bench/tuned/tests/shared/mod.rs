//! Words and bytes, and records, for the tests that compare both models.
#![allow(dead_code)]

pub mod records;

/// Output longer than any answer, and what it holds before a call.
pub const BEFORE: [u8; 23] = [0xBB; 23];

pub fn bytes_of(words: &[u32]) -> Vec<u8> {
    words.iter().flat_map(|word| word.to_le_bytes()).collect()
}

pub fn words_of(bytes: &[u8]) -> Vec<u32> {
    let words = fours_of(bytes).into_iter();
    words.map(u32::from_le_bytes).collect()
}

pub fn fours_of(bytes: &[u8]) -> Vec<[u8; 4]> {
    let four = |part: &[u8]| [part[0], part[1], part[2], part[3]];
    bytes.chunks_exact(4).map(four).collect()
}
