//! Lent memory that is measured wrongly, or written where it should stay.

use ring_model::bytes::{NO_REFUSAL, OUTCOME_BYTES};
use ring_model::refusal::{PLACES_SHORT, RECORD_SHORT};

use super::{counts, questions, Wrong, SELDOM};
use crate::calls::RECORD_BYTES;
use crate::cards::wrong::mark_if_refused;
use crate::engine::route;
use crate::faults::one_in;

/// The wrong routes.
pub const ROUTES: [Wrong; 16] = [
    ("a place behind the last is written", "routes", |words, hub, numbers, outcomes| {
        behind(words, hub, numbers, outcomes, OUTCOME_BYTES)
    }),
    ("a word behind the last place is written", "route_edges", |words, hub, numbers, outcomes| {
        behind(words, hub, numbers, outcomes, 4)
    }),
    ("a byte behind the last place is written", "route_edges", |words, hub, numbers, outcomes| {
        behind(words, hub, numbers, outcomes, 1)
    }),
    ("all that is behind the last place is written", "routes", |words, hub, numbers, outcomes| {
        behind(words, hub, numbers, outcomes, usize::MAX)
    }),
    ("words that make no place are one", "route_edges", |words, hub, numbers, outcomes| {
        rounded(words, hub, numbers, outcomes, OUTCOME_BYTES)
    }),
    (
        "bytes that make no word of a place are one",
        "route_edges",
        |words, hub, numbers, outcomes| rounded(words, hub, numbers, outcomes, 4),
    ),
    ("words over are refused", "routes", |words, hub, numbers, outcomes| {
        unless(outcomes.len() % OUTCOME_BYTES >= 4, PLACES_SHORT, words, hub, numbers, outcomes)
    }),
    ("bytes over are refused", "route_edges", |words, hub, numbers, outcomes| {
        unless(outcomes.len() % 4 > 0, PLACES_SHORT, words, hub, numbers, outcomes)
    }),
    ("more places than numbers are refused", "routes", |words, hub, numbers, outcomes| {
        let (count, places) = counts(numbers, outcomes);
        unless(places > count, PLACES_SHORT, words, hub, numbers, outcomes)
    }),
    ("bytes left over make a number", "routes", |words, hub, numbers, outcomes| {
        let mut longer = numbers.to_vec();
        longer.resize(numbers.len().next_multiple_of(4), 0);
        route(words, hub, &longer, outcomes)
    }),
    (
        "bytes left over behind the numbers are refused",
        "routes",
        |words, hub, numbers, outcomes| {
            unless(numbers.len() % 4 > 0, PLACES_SHORT, words, hub, numbers, outcomes)
        },
    ),
    (
        "bytes left over make the record's last word",
        "route_edges",
        |words, hub, numbers, outcomes| {
            let mut longer = words.to_vec();
            longer.resize(words.len().next_multiple_of(4), 0);
            let code = route(&mut longer, hub, numbers, outcomes);
            words.copy_from_slice(&longer[..words.len()]);
            code
        },
    ),
    ("a longer record is refused", "routes", |words, hub, numbers, outcomes| {
        unless(words.len() >= RECORD_BYTES + 4, RECORD_SHORT, words, hub, numbers, outcomes)
    }),
    ("a refused route writes its outcomes", "routes", |words, hub, numbers, outcomes| {
        mark_if_refused(route(words, hub, numbers, outcomes), outcomes)
    }),
    ("a refused route writes its record", "routes", |words, hub, numbers, outcomes| {
        mark_if_refused(route(words, hub, numbers, outcomes), words)
    }),
    ("a byte behind the record is written, seldom", "routes", |words, hub, numbers, outcomes| {
        let code = route(words, hub, numbers, outcomes);
        if words.len() > RECORD_BYTES && one_in(SELDOM) {
            words[RECORD_BYTES] ^= 1;
        }
        code
    }),
];

/// A route that turns some bits of so many bytes behind the places that it writes, as far as they
/// are lent.
fn behind(words: &mut [u8], hub: u32, numbers: &[u8], outcomes: &mut [u8], bytes: usize) -> u32 {
    let code = route(words, hub, numbers, outcomes);
    if code == NO_REFUSAL {
        let written = OUTCOME_BYTES * (numbers.len() / 4);
        outcomes[written..].iter_mut().take(bytes).for_each(|byte| *byte ^= 0x55);
    }
    code
}

/// A route that takes the room for outcomes to be a multiple of so many bytes.
fn rounded(words: &mut [u8], hub: u32, numbers: &[u8], outcomes: &mut [u8], bytes: usize) -> u32 {
    let mut longer = outcomes.to_vec();
    longer.resize(outcomes.len().next_multiple_of(bytes), 0);
    let code = route(words, hub, numbers, &mut longer);
    outcomes.copy_from_slice(&longer[..outcomes.len()]);
    code
}

/// A route that is refused by this number in such a case, if by no other.
fn unless(
    case: bool,
    number: u32,
    words: &mut [u8],
    hub: u32,
    numbers: &[u8],
    outcomes: &mut [u8],
) -> u32 {
    if case && questions(words, hub, numbers, outcomes) == NO_REFUSAL {
        return number;
    }
    route(words, hub, numbers, outcomes)
}
