//! Wrong questions of the call: in another order, left out, too many, or with other limits.

use ring_model::bytes::NO_REFUSAL;
use ring_model::refusal::{
    NOT_IN_RING, NOT_WELL_FORMED, NO_SUCH_NODE, OUTPUT_SHORT, PLACES_SHORT, RECORD_SHORT,
    ROUTE_LONG,
};

use super::{ask, asks, counts, questions, Wrong};
use crate::calls::word_at;
use crate::engine::route;

/// The wrong routes.
pub const ROUTES: [Wrong; 21] =
    [
        ("26 is asked before 25", "routes", |words, hub, numbers, outcomes| {
            sooner(PLACES_SHORT, &[ROUTE_LONG], words, hub, numbers, outcomes)
        }),
        ("25 is asked before 2", "route_edges", |words, hub, numbers, outcomes| {
            sooner(ROUTE_LONG, &[NOT_WELL_FORMED], words, hub, numbers, outcomes)
        }),
        ("25 is asked before 1", "route_edges", |words, hub, numbers, outcomes| {
            sooner(ROUTE_LONG, &[RECORD_SHORT], words, hub, numbers, outcomes)
        }),
        ("26 is asked before 2", "route_edges", |words, hub, numbers, outcomes| {
            sooner(PLACES_SHORT, &[NOT_WELL_FORMED], words, hub, numbers, outcomes)
        }),
        ("26 is asked before 1", "route_edges", |words, hub, numbers, outcomes| {
            sooner(PLACES_SHORT, &[RECORD_SHORT], words, hub, numbers, outcomes)
        }),
        (
            "26 is asked before 2, on damaged records",
            "damaged_routes",
            |words, hub, numbers, outcomes| {
                sooner(PLACES_SHORT, &[NOT_WELL_FORMED], words, hub, numbers, outcomes)
            },
        ),
        ("64 numbers are refused", "routes", |words, hub, numbers, outcomes| {
            match (counts(numbers, outcomes).0, questions(words, hub, numbers, outcomes)) {
                (64, NO_REFUSAL | PLACES_SHORT) => ROUTE_LONG,
                _ => route(words, hub, numbers, outcomes),
            }
        }),
        ("65 numbers are not refused", "routes", |words, hub, numbers, outcomes| {
            match (counts(numbers, outcomes), route(words, hub, numbers, outcomes)) {
                ((65, 65..), ROUTE_LONG) => asks(words, hub, numbers, outcomes, ask),
                (_, code) => code,
            }
        }),
        ("more than 65 numbers are not refused", "routes", |words, hub, numbers, outcomes| match (
            counts(numbers, outcomes),
            route(words, hub, numbers, outcomes),
        ) {
            ((66.., 66..), ROUTE_LONG) => asks(words, hub, numbers, outcomes, ask),
            (_, code) => code,
        }),
        (
            "of more than 64 numbers the first 64 are asked",
            "route_edges",
            |words, hub, numbers, outcomes| match route(words, hub, numbers, outcomes) {
                ROUTE_LONG => route(words, hub, &numbers[..4 * 64], outcomes),
                code => code,
            },
        ),
        ("as many are asked as there are places", "routes", |words, hub, numbers, outcomes| {
            match route(words, hub, numbers, outcomes) {
                PLACES_SHORT => asks(words, hub, numbers, outcomes, ask),
                code => code,
            }
        }),
        ("too few places are 17", "routes", |words, hub, numbers, outcomes| {
            match route(words, hub, numbers, outcomes) {
                PLACES_SHORT => OUTPUT_SHORT,
                code => code,
            }
        }),
        ("1 is not asked", "route_edges", |words, hub, numbers, outcomes| {
            unasked(RECORD_SHORT, route(words, hub, numbers, outcomes))
        }),
        ("2 is not asked", "damaged_routes", |words, hub, numbers, outcomes| {
            unasked(NOT_WELL_FORMED, route(words, hub, numbers, outcomes))
        }),
        ("of an empty list 1 is not asked", "route_edges", |words, hub, numbers, outcomes| {
            match numbers.len() {
                0..4 => unasked(RECORD_SHORT, route(words, hub, numbers, outcomes)),
                _ => route(words, hub, numbers, outcomes),
            }
        }),
        ("of an empty list 2 is not asked", "route_edges", |words, hub, numbers, outcomes| {
            match numbers.len() {
                0..4 => unasked(NOT_WELL_FORMED, route(words, hub, numbers, outcomes)),
                _ => route(words, hub, numbers, outcomes),
            }
        }),
        ("an empty list is refused", "routes", |words, hub, numbers, outcomes| {
            match (numbers.len(), route(words, hub, numbers, outcomes)) {
                (0..4, NO_REFUSAL) => PLACES_SHORT,
                (_, code) => code,
            }
        }),
        ("an empty list needs a place", "route_edges", |words, hub, numbers, outcomes| {
            match (counts(numbers, outcomes), route(words, hub, numbers, outcomes)) {
                ((0, 0), NO_REFUSAL) => PLACES_SHORT,
                (_, code) => code,
            }
        }),
        ("a hub that is none refuses the call", "routes", |words, hub, numbers, outcomes| {
            refused_alike(NO_SUCH_NODE, words, hub, numbers, outcomes)
        }),
        ("a hub outside refuses the call", "routes", |words, hub, numbers, outcomes| {
            refused_alike(NOT_IN_RING, words, hub, numbers, outcomes)
        }),
        (
            "a hub outside refuses the call, on any record",
            "any_routes",
            |words, hub, numbers, outcomes| {
                refused_alike(NOT_IN_RING, words, hub, numbers, outcomes)
            },
        ),
    ];

/// A route that says 25 or 26 before these.
fn sooner(
    number: u32,
    these: &[u32],
    words: &mut [u8],
    hub: u32,
    numbers: &[u8],
    outcomes: &mut [u8],
) -> u32 {
    let (count, places) = counts(numbers, outcomes);
    let says_no = if number == ROUTE_LONG { count > 64 } else { places < count };
    let code = route(words, hub, numbers, outcomes);
    if says_no && these.contains(&code) {
        return number;
    }
    code
}

/// What a route that does not ask this question says to a call that has nothing else wrong.
fn unasked(number: u32, code: u32) -> u32 {
    if code == number {
        return NO_REFUSAL;
    }
    code
}

/// A route that is refused by the number that its first question gets.
fn refused_alike(
    number: u32,
    words: &mut [u8],
    hub: u32,
    numbers: &[u8],
    outcomes: &mut [u8],
) -> u32 {
    let mut came = outcomes.to_vec();
    let code = route(&mut words.to_vec(), hub, numbers, &mut came);
    if code == NO_REFUSAL && numbers.len() >= 4 && word_at(&came, 0) == number {
        return number;
    }
    route(words, hub, numbers, outcomes)
}
