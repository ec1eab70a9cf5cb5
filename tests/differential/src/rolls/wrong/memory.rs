//! Lent memory that is measured wrongly, or written where it should stay.

use ring_model::bytes::{LENGTH_BYTES, NO_REFUSAL};
use ring_model::refusal::{OUTPUT_SHORT, RECORD_SHORT};

use super::{count, with_room, Wrong};
use crate::calls::{put_word, word_at, RECORD_BYTES};
use crate::cards::wrong::mark_if_refused;
use crate::engine;

/// The wrong rolls.
pub const ROLLS: [Wrong; 18] = [
    ("a byte behind the roll is written", "runs", |words, hub, roll, length| {
        behind(words, hub, roll, length, 1)
    }),
    ("a word behind the roll is written", "runs", |words, hub, roll, length| {
        behind(words, hub, roll, length, 4)
    }),
    ("all that is behind the roll is written", "runs", |words, hub, roll, length| {
        behind(words, hub, roll, length, usize::MAX)
    }),
    ("a byte left over behind a full roll is written", "roll_edges", |words, hub, roll, length| {
        let code = engine::roll(words, hub, roll, length);
        if code == NO_REFUSAL && roll.len() / 4 == count(length) {
            roll[4 * count(length)..].iter_mut().for_each(|byte| *byte ^= 1);
        }
        code
    }),
    ("a byte behind the length is written", "runs", |words, hub, roll, length| {
        let code = engine::roll(words, hub, roll, length);
        if let (NO_REFUSAL, Some(byte)) = (code, length.get_mut(LENGTH_BYTES)) {
            *byte ^= 1;
        }
        code
    }),
    ("a roll begins at the next word", "runs", |words, hub, roll, length| {
        let shorter = roll.len().saturating_sub(4);
        match (engine::roll(words, hub, &mut roll[..shorter], length), roll.len()) {
            (NO_REFUSAL, _) => {
                roll.rotate_right(4);
                NO_REFUSAL
            }
            _ => engine::roll(words, hub, roll, length),
        }
    }),
    ("bytes left over are room for a hub", "roll_edges", |words, hub, roll, length| {
        let mut longer = roll.to_vec();
        longer.resize(roll.len().next_multiple_of(4), 0);
        let code = engine::roll(words, hub, &mut longer, length);
        roll.copy_from_slice(&longer[..roll.len()]);
        code
    }),
    ("bytes left over behind the roll are refused", "runs", |words, hub, roll, length| {
        unless(roll.len() % 4 > 0, OUTPUT_SHORT, words, hub, roll, length)
    }),
    ("room for all hubs is needed", "runs", |words, hub, roll, length| {
        let all = words.get(4..8).map_or(0, |_| 4 * word_at(words, 1) as usize);
        unless(roll.len() < all, OUTPUT_SHORT, words, hub, roll, length)
    }),
    ("room for one hub more is needed", "runs", |words, hub, roll, length| {
        let mut counted = [0; LENGTH_BYTES];
        engine::roll(words, hub, &mut roll.to_vec(), &mut counted);
        unless(roll.len() / 4 == count(&counted), OUTPUT_SHORT, words, hub, roll, length)
    }),
    ("room for more than 64 hubs is refused", "roll_edges", |words, hub, roll, length| {
        unless(roll.len() > 256, OUTPUT_SHORT, words, hub, roll, length)
    }),
    ("a length longer than a word is refused", "runs", |words, hub, roll, length| {
        unless(length.len() > LENGTH_BYTES, OUTPUT_SHORT, words, hub, roll, length)
    }),
    ("a longer record is refused, of a roll", "runs", |words, hub, roll, length| {
        unless(words.len() >= RECORD_BYTES + 4, RECORD_SHORT, words, hub, roll, length)
    }),
    (
        "bytes left over make a roll's record long enough",
        "roll_edges",
        |words, hub, roll, length| {
            let mut longer = words.to_vec();
            longer.resize(words.len().next_multiple_of(4), 0);
            engine::roll(&longer, hub, roll, length)
        },
    ),
    ("a refused roll is written", "runs", |words, hub, roll, length| {
        mark_if_refused(engine::roll(words, hub, roll, length), roll)
    }),
    ("a refused roll's length is written", "runs", |words, hub, roll, length| {
        mark_if_refused(engine::roll(words, hub, roll, length), length)
    }),
    ("as many hubs are written as there is room for", "runs", |words, hub, roll, length| {
        let mut longer = [0; 256];
        let code = engine::roll(words, hub, roll, length);
        if code == OUTPUT_SHORT && length.len() >= LENGTH_BYTES {
            engine::roll(words, hub, &mut longer, &mut [0; LENGTH_BYTES]);
            let room = roll.len();
            roll.copy_from_slice(&longer[..room]);
        }
        code
    }),
    ("17 for the roll tells how long it is", "runs", |words, hub, roll, length| {
        let mut counted = [0; LENGTH_BYTES];
        let code = engine::roll(words, hub, roll, length);
        if code == OUTPUT_SHORT && length.len() >= LENGTH_BYTES {
            engine::roll(words, hub, &mut [0; 256], &mut counted);
            put_word(length, 0, word_at(&counted, 0));
        }
        code
    }),
];

/// A roll that turns some bits of so many bytes behind the hubs that it writes, as far as they are
/// lent.
fn behind(words: &[u8], hub: u32, roll: &mut [u8], length: &mut [u8], bytes: usize) -> u32 {
    let code = engine::roll(words, hub, roll, length);
    if code == NO_REFUSAL {
        roll[4 * count(length)..].iter_mut().take(bytes).for_each(|byte| *byte ^= 0x55);
    }
    code
}

/// A roll that is refused by this number in such a case, if by no other.
fn unless(
    case: bool,
    number: u32,
    words: &[u8],
    hub: u32,
    roll: &mut [u8],
    length: &mut [u8],
) -> u32 {
    let refused = length.len() < LENGTH_BYTES || with_room(words, hub, roll) != NO_REFUSAL;
    if case && !refused {
        return number;
    }
    engine::roll(words, hub, roll, length)
}
