//! Which route comes next: the hub, the numbers, and the memory that is lent.

use ring_model::bytes::OUTCOME_BYTES;
use ring_model::generator::Generator;
use ring_model::record::State;
use ring_model::routes::MAX_NUMBERS;

use super::route::Route;
use crate::driver::any_node;
use crate::identifiers::some_key;

/// The longest list that is made.
pub const LONGEST: usize = 70;

/// A route on a ring in this state. Mostly it is not refused.
pub fn some_route(generator: &mut Generator, state: &State) -> Route {
    let count = some_count(generator);
    route_of(generator, state, count)
}

/// A route of so many numbers, mostly with enough room.
pub fn route_of(generator: &mut Generator, state: &State, count: usize) -> Route {
    let hub = some_hub(generator, state);
    let numbers = some_numbers(generator, state, hub, count);
    let lent = [generator.below(4) as usize, some_room(generator, count)];
    Route::new(generator, hub, &numbers, lent)
}

/// Mostly a hub that may be asked; any, and one that is none, now and then.
pub fn some_hub(generator: &mut Generator, state: &State) -> u32 {
    let n = state.n();
    if generator.chance(12) {
        return any_node(generator, n);
    }
    let start = generator.below(n);
    let in_ring = |&hub: &u32| state.row(hub).in_ring();
    (start..n).chain(0..start).find(in_ring).unwrap_or(start)
}

/// None to 64 numbers, often few or all; now and then too many.
fn some_count(generator: &mut Generator) -> usize {
    let most = MAX_NUMBERS as u32;
    let count = match generator.below(16) {
        0 => 0,
        1 => 1,
        2..=4 => most - generator.below(2),
        5 => most + 1 + generator.below(LONGEST as u32 - most),
        6..=8 => generator.below(most + 1),
        _ => 1 + generator.below(8),
    };
    count as usize
}

/// Numbers where ranges meet; one and the same; or mostly such as the hub may own.
pub fn some_numbers(generator: &mut Generator, state: &State, hub: u32, count: usize) -> Vec<u32> {
    let (style, one) = (generator.below(6), some_key(generator, state));
    let own = state.rows.get(hub as usize).map_or(one, |row| row.identifier);
    let number = |_| match style {
        0 => one,
        1 | 2 if generator.chance(60) => own.wrapping_sub(generator.below(2)),
        _ => some_key(generator, state),
    };
    (0..count).map(number).collect()
}

/// Bytes for the outcomes of so many numbers: exactly enough, some more, or too few.
fn some_room(generator: &mut Generator, count: usize) -> usize {
    let enough = OUTCOME_BYTES * count;
    match generator.below(16) {
        0 => enough.saturating_sub(1 + generator.below(2 * OUTCOME_BYTES as u32) as usize),
        1..=5 => enough,
        6..=9 => enough + generator.below(OUTCOME_BYTES as u32) as usize,
        _ => enough + generator.below(4 * OUTCOME_BYTES as u32) as usize,
    }
}
