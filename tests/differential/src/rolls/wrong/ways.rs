//! Rolls that go another way, or end elsewhere.

use ring_model::bytes::NO_REFUSAL;
use ring_model::record::{Row, State, LEAVING, NONE, WANTING_TO_LEAVE};
use ring_model::refusal::{NO_WAY_ROUND, OUTPUT_SHORT};

use super::{changed, count, tell, Wrong};
use crate::calls::{words_of, RollCall};
use crate::engine;

/// The wrong rolls.
pub const ROLLS: [Wrong; 10] = [
    ("a roll goes by pred", "runs", BY_PRED),
    ("a roll goes by pred, on any record", "unreachable", BY_PRED),
    ("a way into another circle is a roll", "runs", INTO_ANOTHER),
    ("a way into another circle is a roll, on any record", "unreachable", INTO_ANOTHER),
    ("a roll ends where there is no succ", "unreachable", |words, hub, roll, length| {
        walk(words, hub, roll, length, |row| row.succ, |next| next == NONE)
    }),
    ("hubs that leave are not in a roll", "runs", |words, hub, roll, length| {
        changed(words, hub, roll, length, |hubs, state| {
            hubs.retain(|&hub| state.row(hub).state != LEAVING);
        })
    }),
    ("hubs that want to leave are not in a roll", "runs", |words, hub, roll, length| {
        changed(words, hub, roll, length, |hubs, state| {
            hubs.retain(|&hub| state.row(hub).state != WANTING_TO_LEAVE);
        })
    }),
    ("a way of all hubs is given up", "runs", GIVEN_UP),
    ("a way of all hubs is given up, with any memory", "roll_edges", GIVEN_UP),
    ("a roll of one is given up", "runs", |words, hub, roll, length| {
        given_up(words, hub, roll, length, |_, hubs| hubs == 1)
    }),
];

const BY_PRED: RollCall =
    |words, hub, roll, length| walk(words, hub, roll, length, |row| row.pred, |_| false);
const INTO_ANOTHER: RollCall =
    |words, hub, roll, length| walk(words, hub, roll, length, |row| row.succ, |next| next != NONE);
const GIVEN_UP: RollCall =
    |words, hub, roll, length| given_up(words, hub, roll, length, |n, hubs| n > 1 && hubs == n);

/// The roll by the right way.
pub fn same(words: &[u8], hub: u32, roll: &mut [u8], length: &mut [u8]) -> u32 {
    walk(words, hub, roll, length, |row| row.succ, |_| false)
}

/// A roll of the hubs on another way. Where that does not come back, it is refused, or ends. What
/// else the engine says stands.
fn walk(
    words: &[u8],
    hub: u32,
    roll: &mut [u8],
    length: &mut [u8],
    next: fn(&Row) -> u32,
    ends: fn(u32) -> bool,
) -> u32 {
    let code = engine::roll(words, hub, &mut roll.to_vec(), &mut length.to_vec());
    let walked = length.len() >= 4 && matches!(code, NO_REFUSAL | NO_WAY_ROUND | OUTPUT_SHORT);
    let (true, Ok(state)) = (walked, State::read(&words_of(words))) else {
        return code;
    };
    let mut hubs = vec![hub];
    let mut place = next(state.row(hub));
    while place != hub {
        match place == NONE || hubs.contains(&place) {
            true if ends(place) => break,
            true => return NO_WAY_ROUND,
            false => hubs.push(place),
        }
        place = next(state.row(place));
    }
    if roll.len() / 4 < hubs.len() {
        return OUTPUT_SHORT;
    }
    tell(&hubs, roll, length);
    NO_REFUSAL
}

/// A roll that is refused by 16 in such a case of hub count and length.
fn given_up(
    words: &[u8],
    hub: u32,
    roll: &mut [u8],
    length: &mut [u8],
    case: impl Fn(usize, usize) -> bool,
) -> u32 {
    let mut counted = [0; 4];
    let code = engine::roll(words, hub, &mut roll.to_vec(), &mut counted);
    let hubs = |state: State| state.rows.len();
    let n = State::read(&words_of(words)).map_or(0, hubs);
    if code == NO_REFUSAL && length.len() >= 4 && case(n, count(&counted)) {
        return NO_WAY_ROUND;
    }
    engine::roll(words, hub, roll, length)
}
