//! Rolls that are refused by another number, or with other limits.

use ring_model::bytes::{LENGTH_BYTES, NO_REFUSAL};
use ring_model::record::{JOINING, LEAVING, MAX_NODES, OUTSIDE, WANTING_TO_LEAVE};
use ring_model::refusal::{
    NOT_IN_RING, NO_HOLDER, NO_SUCH_NODE, NO_WAY_ROUND, OUTPUT_SHORT, ROOM_SHORT,
};

use super::{instead, state, Wrong};
use crate::calls::word_at;
use crate::engine;

/// The wrong rolls.
pub const ROLLS: [Wrong; 13] =
    [
        ("16 where it should be 17", "runs", |words, hub, roll, length| {
            match (engine::roll(words, hub, roll, length), length.len()) {
                (OUTPUT_SHORT, LENGTH_BYTES..) => NO_WAY_ROUND,
                (code, _) => code,
            }
        }),
        ("17 where it should be 16", "runs", |words, hub, roll, length| {
            instead(NO_WAY_ROUND, OUTPUT_SHORT, words, hub, roll, length)
        }),
        ("21 where it should be 17", "runs", |words, hub, roll, length| {
            instead(OUTPUT_SHORT, ROOM_SHORT, words, hub, roll, length)
        }),
        ("15 where it should be 16", "unreachable", |words, hub, roll, length| {
            instead(NO_WAY_ROUND, NO_HOLDER, words, hub, roll, length)
        }),
        ("5 where it should be 4, of a roll", "runs", |words, hub, roll, length| {
            instead(NO_SUCH_NODE, NOT_IN_RING, words, hub, roll, length)
        }),
        ("4 where it should be 5", "runs", |words, hub, roll, length| {
            instead(NOT_IN_RING, NO_SUCH_NODE, words, hub, roll, length)
        }),
        ("the hub count is a hub", "unreachable", |words, hub, roll, length| {
            match engine::roll(words, hub, roll, length) {
                NO_SUCH_NODE if hub == word_at(words, 1) => NOT_IN_RING,
                code => code,
            }
        }),
        ("every number below 64 is a hub", "unreachable", |words, hub, roll, length| {
            match engine::roll(words, hub, roll, length) {
                NO_SUCH_NODE if (hub as usize) < MAX_NODES => NOT_IN_RING,
                code => code,
            }
        }),
        ("a hub's lowest byte alone is read", "unreachable", |words, hub, roll, length| {
            engine::roll(words, hub & 0xFF, roll, length)
        }),
        ("no roll from a hub that wants to leave", "runs", |words, hub, roll, length| {
            of_state(WANTING_TO_LEAVE, NO_REFUSAL, NOT_IN_RING, words, hub, roll, length)
        }),
        ("no roll from a hub that leaves", "runs", |words, hub, roll, length| {
            of_state(LEAVING, NO_REFUSAL, NOT_IN_RING, words, hub, roll, length)
        }),
        ("16 from a hub that is joining", "runs", |words, hub, roll, length| {
            of_state(JOINING, NOT_IN_RING, NO_WAY_ROUND, words, hub, roll, length)
        }),
        ("16 from a hub outside, on any record", "unreachable", |words, hub, roll, length| {
            of_state(OUTSIDE, NOT_IN_RING, NO_WAY_ROUND, words, hub, roll, length)
        }),
    ];

/// A roll that tells another number for this one, from hubs in one state.
fn of_state(
    its: u32,
    number: u32,
    other: u32,
    words: &[u8],
    hub: u32,
    roll: &mut [u8],
    length: &mut [u8],
) -> u32 {
    let code = engine::roll(words, hub, &mut roll.to_vec(), &mut length.to_vec());
    if code == number && state(words, hub) == Some(its) {
        return other;
    }
    engine::roll(words, hub, roll, length)
}
