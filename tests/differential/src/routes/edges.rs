//! Routes with memory of every length that matters: records, lists of none to 70 numbers with bytes
//! left over, and room for outcomes from none to more than enough.

use ring_model::bytes::OUTCOME_BYTES;
use ring_model::generator::Generator;
use ring_model::record::State;

use super::counts::Source;
use super::lists::{route_of, some_hub, some_numbers, LONGEST};
use super::route::Route;
use crate::calls::Calls;
use crate::damaged::bytes_of;
use crate::lengths::{around_enough, record_lengths, some_record};
use crate::lent::Lent;
use crate::reached::Reached;
use crate::states::any_state;

/// Bytes by which the room is short of enough, and by which it is longer.
const SHORT: [usize; 6] = [1, 2, 4, 20, 24, 25];
const LONGER: [usize; 10] = [0, 1, 3, 4, 7, 20, 23, 24, 25, 100];

/// All lengths once.
pub fn batch(
    generator: &mut Generator,
    calls: Calls,
    _number: u64,
    reached: &mut Reached,
) -> Result<(), String> {
    let state = any_state(generator);
    let sound = bytes_of(&state);
    for count in 0..=LONGEST {
        for room in rooms(count) {
            let length = around_enough(generator);
            let record = some_record(generator, &sound, length);
            let hub = some_hub(generator, &state);
            let numbers = some_numbers(generator, &state, hub, count);
            let over = generator.below(4) as usize;
            let route = Route::new(generator, hub, &numbers, [over, room]);
            call(calls, record, route, &state, reached)?;
        }
    }
    for length in record_lengths() {
        let record = some_record(generator, &sound, length);
        let count = [1, 5, 64, 65][generator.below(4) as usize];
        let route = route_of(generator, &state, count);
        call(calls, record, route, &state, reached)?;
    }
    Ok(())
}

/// One route of both, compared.
fn call(
    calls: Calls,
    mut record: Lent,
    mut route: Route,
    state: &State,
    reached: &mut Reached,
) -> Result<(), String> {
    let length = record.look().len();
    let called = route.call(calls, &mut record);
    let code =
        called.map_err(|what| format!("record of {length} bytes: {what}\n  in {state:?}"))?;
    reached.routes.called(Source::Lengths, code, &route, record.look());
    Ok(())
}

/// None, short of enough, and enough or longer.
fn rooms(count: usize) -> Vec<usize> {
    let enough = OUTCOME_BYTES * count;
    let short = SHORT.iter().filter_map(|by| enough.checked_sub(*by));
    let mut all: Vec<usize> = short.chain(LONGER.iter().map(|by| enough + by)).collect();
    all.push(0);
    all
}
