//! Faults planted in front of the engine's owner query: ranges read wrongly where the three cases of
//! document 02's request 2026-05 meet.

use ring_model::bytes::{NO_REFUSAL, OWNER_BYTES};
use ring_model::clockwise::in_interval;
use ring_model::record::{State, INSIDE, WANTING_TO_LEAVE};
use ring_model::refusal::NO_HOLDER;

use crate::calls::{put_word, words_of};
use crate::engine;

type Owner = fn(&[u8], u32, &mut [u8]) -> u32;

/// Owner queries with a wrong range: what is wrong, and the call.
pub const OWNERS: [(&str, Owner); 6] = [
    ("a range (a, a] is empty", |words, key, out| {
        owner_by(words, key, out, |v, a, b| a != b && in_interval(v, a, b))
    }),
    ("a range (a, b] has a", |words, key, out| {
        owner_by(words, key, out, |v, a, b| (a < b && v == a) || in_interval(v, a, b))
    }),
    ("a range (a, b] that passes zero has a", |words, key, out| {
        owner_by(words, key, out, |v, a, b| (b < a && v == a) || in_interval(v, a, b))
    }),
    ("a range (a, b] lacks b", |words, key, out| {
        owner_by(words, key, out, |v, a, b| a == b || (v != b && in_interval(v, a, b)))
    }),
    ("a range that passes zero ends there", |words, key, out| {
        owner_by(words, key, out, |v, a, b| in_interval(v, a, b) && (a <= b || a < v))
    }),
    ("a range that passes zero begins there", |words, key, out| {
        owner_by(words, key, out, |v, a, b| in_interval(v, a, b) && (a <= b || v <= b))
    }),
];

/// The owner query by the right range.
pub fn same_owner(words: &[u8], key: u32, out: &mut [u8]) -> u32 {
    owner_by(words, key, out, in_interval)
}

/// The lowest hub in whose range the key is, by this test; what else the engine says stands.
fn owner_by(words: &[u8], key: u32, out: &mut [u8], range: fn(u32, u32, u32) -> bool) -> u32 {
    let code = engine::owner(words, key, &mut out.to_vec());
    let (NO_REFUSAL | NO_HOLDER, Ok(state)) = (code, State::read(&words_of(words))) else {
        return code;
    };
    let holds = |&node: &u32| {
        let row = state.row(node);
        let inside = row.state == INSIDE || row.state == WANTING_TO_LEAVE;
        inside && range(key, state.row(row.pred).identifier, row.identifier)
    };
    match (0..state.n()).find(holds) {
        None => NO_HOLDER,
        Some(node) => {
            put_word(&mut out[..OWNER_BYTES], 0, node);
            NO_REFUSAL
        }
    }
}
