//! Rolls that are written otherwise, or with another length.

use ring_model::bytes::NO_REFUSAL;

use super::{count, Wrong};
use crate::calls::{put_word, word_at};
use crate::engine;

/// The wrong rolls.
pub const ROLLS: [Wrong; 10] = [
    ("the length is one too much", "runs", |words, hub, roll, length| {
        counted(words, hub, roll, length, |count| count + 1)
    }),
    ("the length is one too little", "runs", |words, hub, roll, length| {
        counted(words, hub, roll, length, |count| count - 1)
    }),
    ("the length is the hub count", "runs", |words, hub, roll, length| {
        counted(words, hub, roll, length, |_| word_at(words, 1))
    }),
    ("the length is in bytes", "runs", |words, hub, roll, length| {
        counted(words, hub, roll, length, |count| 4 * count)
    }),
    ("the length has its highest byte first", "runs", |words, hub, roll, length| {
        counted(words, hub, roll, length, u32::swap_bytes)
    }),
    ("the length is one byte", "runs", |words, hub, roll, length| {
        let old = length.to_vec();
        let code = engine::roll(words, hub, roll, length);
        if code == NO_REFUSAL {
            length[1..].copy_from_slice(&old[1..]);
        }
        code
    }),
    ("the length is not written", "runs", |words, hub, roll, length| {
        engine::roll(words, hub, roll, &mut length.to_vec())
    }),
    ("the roll is not written", "runs", |words, hub, roll, length| {
        engine::roll(words, hub, &mut roll.to_vec(), length)
    }),
    ("hubs have their highest byte first", "runs", |words, hub, roll, length| {
        let code = engine::roll(words, hub, roll, length);
        if code == NO_REFUSAL {
            roll.chunks_exact_mut(4).take(count(length)).for_each(<[u8]>::reverse);
        }
        code
    }),
    ("a hub is one byte", "runs", |words, hub, roll, length| {
        let old = roll.to_vec();
        let code = engine::roll(words, hub, roll, length);
        if code == NO_REFUSAL {
            let written = roll.to_vec();
            roll.copy_from_slice(&old);
            (0..count(length)).for_each(|place| roll[place] = written[4 * place]);
        }
        code
    }),
];

/// A roll with another length.
fn counted(
    words: &[u8],
    hub: u32,
    roll: &mut [u8],
    length: &mut [u8],
    other: impl FnOnce(u32) -> u32,
) -> u32 {
    let code = engine::roll(words, hub, roll, length);
    if code == NO_REFUSAL {
        let count = word_at(length, 0);
        put_word(length, 0, other(count));
    }
    code
}
