//! Roll calls with memory of every length that matters: records, rolls from none to longer than any,
//! with bytes left over, and lengths.

use ring_model::generator::Generator;
use ring_model::record::{State, MAX_NODES};

use super::counts::Source;
use super::roll::{enough, Roll};
use crate::calls::Calls;
use crate::damaged::bytes_of;
use crate::lengths::{around_enough, record_lengths, some_record};
use crate::lent::Lent;
use crate::reached::Reached;
use crate::routes::lists::some_hub;
use crate::states::{any_state, settled};

/// The longest output for the length that is tried, and so many bytes around each room.
const MOST_LENGTH: usize = 9;
const AROUND: usize = 9;

/// All lengths once.
pub fn batch(
    generator: &mut Generator,
    calls: Calls,
    _number: u64,
    reached: &mut Reached,
) -> Result<(), String> {
    let rests = generator.chance(50);
    let state = if rests { settled(generator) } else { any_state(generator) };
    let sound = bytes_of(&state);
    let hub = some_hub(generator, &state);
    for room in rooms(&state, hub) {
        for length in 0..=MOST_LENGTH {
            // Mostly the same hub, whose roll the rooms are for.
            let hub = if generator.chance(10) { some_hub(generator, &state) } else { hub };
            let bytes = around_enough(generator);
            let record = some_record(generator, &sound, bytes);
            let roll = Roll::new(generator, hub, [room, length]);
            call(calls, record, roll, &state, reached)?;
        }
    }
    for bytes in record_lengths() {
        let record = some_record(generator, &sound, bytes);
        let roll = Roll::some(generator, &state);
        call(calls, record, roll, &state, reached)?;
    }
    Ok(())
}

/// None to some words, around enough for the roll from this hub, around as much as all hubs need,
/// and around the most.
fn rooms(state: &State, hub: u32) -> Vec<usize> {
    let around = [0, enough(state, hub), 4 * state.rows.len(), 4 * MAX_NODES];
    let mut all: Vec<usize> =
        around.into_iter().flat_map(|room| room.saturating_sub(AROUND)..=room + AROUND).collect();
    all.push(1000);
    all.sort_unstable();
    all.dedup();
    all
}

/// One roll call of both, compared.
fn call(
    calls: Calls,
    mut record: Lent,
    mut roll: Roll,
    state: &State,
    reached: &mut Reached,
) -> Result<(), String> {
    let length = record.look().len();
    let called = roll.call(calls, &mut record);
    let code =
        called.map_err(|what| format!("record of {length} bytes: {what}\n  in {state:?}"))?;
    reached.roll(Source::Lengths, code, &roll, record.look());
    Ok(())
}
