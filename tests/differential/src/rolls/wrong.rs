//! Faults planted in front of the engine's roll call.

mod asked;
mod hubs;
mod lengths;
mod memory;
mod numbers;
mod ways;

use ring_model::bytes::NO_REFUSAL;
use ring_model::record::{row_start, State, MAX_NODES};

use crate::calls::{put_word, put_words, word_at, words_of, Calls, RollCall, ENGINE, RECORD_BYTES};
use crate::engine;

/// What is wrong, the part that must see it, and the call.
type Wrong = (&'static str, &'static str, RollCall);

/// All of them.
pub fn faults() -> Vec<(&'static str, &'static str, Calls)> {
    let tables: [&[Wrong]; 6] = [
        &asked::ROLLS,
        &numbers::ROLLS,
        &hubs::ROLLS,
        &ways::ROLLS,
        &lengths::ROLLS,
        &memory::ROLLS,
    ];
    let with = |&(name, part, roll): &Wrong| (name, part, Calls { roll, ..ENGINE });
    tables.into_iter().flatten().map(with).collect()
}

/// A roll call that is made as the wrong ones are, and is not wrong.
pub fn same() -> Calls {
    Calls { roll: ways::same, ..ENGINE }
}

/// A roll whose hubs are changed, if it is not refused; written as far as there is room.
fn changed(
    words: &[u8],
    hub: u32,
    roll: &mut [u8],
    length: &mut [u8],
    change: impl FnOnce(&mut Vec<u32>, &State),
) -> u32 {
    let before = roll.to_vec();
    let code = engine::roll(words, hub, roll, length);
    if let (NO_REFUSAL, Ok(state)) = (code, State::read(&words_of(words))) {
        let mut hubs = words_of(&roll[..4 * count(length)]);
        roll.copy_from_slice(&before);
        change(&mut hubs, &state);
        tell(&hubs, roll, length);
    }
    code
}

/// Writes a roll, as far as there is room, and its length.
fn tell(hubs: &[u32], roll: &mut [u8], length: &mut [u8]) {
    put_words(roll, hubs);
    put_word(length, 0, hubs.len() as u32);
}

/// How many hubs a roll has that was not refused.
fn count(length: &[u8]) -> usize {
    word_at(length, 0) as usize
}

/// The number that the engine returns where there is room enough, tried on memory of its own.
fn with_room(words: &[u8], hub: u32, roll: &[u8]) -> u32 {
    engine::roll(words, hub, &mut roll.to_vec(), &mut [0; 4])
}

/// A hub's state, as the record has it.
fn state(words: &[u8], hub: u32) -> Option<u32> {
    let there = words.len() >= RECORD_BYTES && (hub as usize) < MAX_NODES;
    there.then(|| word_at(words, row_start(hub as usize) + 1))
}

/// A roll that tells another number for this one.
fn instead(
    number: u32,
    other: u32,
    words: &[u8],
    hub: u32,
    roll: &mut [u8],
    length: &mut [u8],
) -> u32 {
    match engine::roll(words, hub, roll, length) {
        code if code == number => other,
        code => code,
    }
}
