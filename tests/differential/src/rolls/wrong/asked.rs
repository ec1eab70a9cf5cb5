//! Wrong questions of the roll call: in another order, or left out.

use ring_model::bytes::{LENGTH_BYTES, NO_REFUSAL};
use ring_model::record::MAX_NODES;
use ring_model::refusal::{
    NOT_IN_RING, NOT_WELL_FORMED, NO_SUCH_NODE, NO_WAY_ROUND, OUTPUT_SHORT, RECORD_SHORT,
};

use super::{instead, state, with_room, Wrong};
use crate::engine;

/// The wrong rolls.
pub const ROLLS: [Wrong; 18] = [
    ("17 for the length is asked after 1", "roll_edges", |words, hub, roll, length| {
        later(&[RECORD_SHORT], words, hub, roll, length)
    }),
    ("17 for the length is asked after 2", "roll_edges", |words, hub, roll, length| {
        later(&[NOT_WELL_FORMED], words, hub, roll, length)
    }),
    ("17 for the length is asked after 4", "roll_edges", |words, hub, roll, length| {
        later(&[NO_SUCH_NODE], words, hub, roll, length)
    }),
    ("17 for the length is asked after 5", "roll_edges", |words, hub, roll, length| {
        later(&[NOT_IN_RING], words, hub, roll, length)
    }),
    ("17 for the length is asked last", "roll_edges", |words, hub, roll, length| {
        let all = [RECORD_SHORT, NOT_WELL_FORMED, NO_SUCH_NODE, NOT_IN_RING, NO_WAY_ROUND];
        later(&all, words, hub, roll, length)
    }),
    ("17 for the length is asked last, in a run", "runs", |words, hub, roll, length| {
        later(&[NO_SUCH_NODE, NOT_IN_RING, NO_WAY_ROUND], words, hub, roll, length)
    }),
    ("17 for the roll is asked before 16", "unreachable", |words, hub, roll, length| {
        sooner(OUTPUT_SHORT, roll.len() < 4, &[NO_WAY_ROUND], words, hub, roll, length)
    }),
    ("17 for the roll is asked before 5", "unreachable", |words, hub, roll, length| {
        sooner(OUTPUT_SHORT, roll.len() < 4, &[NOT_IN_RING], words, hub, roll, length)
    }),
    ("17 for the roll is asked before 4", "unreachable", |words, hub, roll, length| {
        sooner(OUTPUT_SHORT, roll.len() < 4, &[NO_SUCH_NODE], words, hub, roll, length)
    }),
    ("17 for the roll is asked before 2", "damaged", |words, hub, roll, length| {
        sooner(OUTPUT_SHORT, roll.len() < 4, &[NOT_WELL_FORMED], words, hub, roll, length)
    }),
    ("17 for the roll is asked before 1", "roll_edges", |words, hub, roll, length| {
        sooner(OUTPUT_SHORT, roll.len() < 4, &[RECORD_SHORT], words, hub, roll, length)
    }),
    ("4 is asked before 2", "damaged", |words, hub, roll, length| {
        let none = hub as usize >= MAX_NODES;
        sooner(NO_SUCH_NODE, none, &[NOT_WELL_FORMED], words, hub, roll, length)
    }),
    ("4 is asked before 1", "roll_edges", |words, hub, roll, length| {
        let none = hub as usize >= MAX_NODES;
        sooner(NO_SUCH_NODE, none, &[RECORD_SHORT], words, hub, roll, length)
    }),
    ("5 is asked before 2", "damaged", |words, hub, roll, length| {
        let out = !matches!(state(words, hub), Some(2..=4));
        sooner(NOT_IN_RING, out, &[NOT_WELL_FORMED], words, hub, roll, length)
    }),
    ("17 for the length is not asked", "runs", |words, hub, roll, length| {
        match engine::roll(words, hub, roll, length) {
            OUTPUT_SHORT if length.len() < LENGTH_BYTES => {
                engine::roll(words, hub, roll, &mut [0; LENGTH_BYTES])
            }
            code => code,
        }
    }),
    ("three bytes are enough for the length", "roll_edges", |words, hub, roll, length| {
        if length.len() != LENGTH_BYTES - 1 {
            return engine::roll(words, hub, roll, length);
        }
        let mut longer = [0; LENGTH_BYTES];
        let code = engine::roll(words, hub, roll, &mut longer);
        if code == NO_REFUSAL {
            length.copy_from_slice(&longer[..LENGTH_BYTES - 1]);
        }
        code
    }),
    ("1 is not asked of a roll", "roll_edges", |words, hub, roll, length| {
        instead(RECORD_SHORT, NO_REFUSAL, words, hub, roll, length)
    }),
    ("2 is not asked of a roll", "damaged", |words, hub, roll, length| {
        instead(NOT_WELL_FORMED, NO_REFUSAL, words, hub, roll, length)
    }),
];

/// A roll that asks these before the 17 for its length.
fn later(these: &[u32], words: &[u8], hub: u32, roll: &mut [u8], length: &mut [u8]) -> u32 {
    let code = engine::roll(words, hub, roll, length);
    match with_room(words, hub, roll) {
        other if code == OUTPUT_SHORT && these.contains(&other) => other,
        _ => code,
    }
}

/// A roll that says this number before these, in such a case.
fn sooner(
    number: u32,
    case: bool,
    these: &[u32],
    words: &[u8],
    hub: u32,
    roll: &mut [u8],
    length: &mut [u8],
) -> u32 {
    match engine::roll(words, hub, roll, length) {
        code if case && these.contains(&code) => number,
        code => code,
    }
}
