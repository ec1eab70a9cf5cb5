//! Routes on well-formed records that no run reaches, often with little room or few tickets left:
//! there they must do what the asks do one by one as well.

use ring_model::generator::Generator;
use ring_model::kinds::LEAVEDONE;
use ring_model::record::{well_formed, Message, State, MAX_MESSAGES};
use ring_model::routes::MAX_NUMBERS;

use super::counts::Source;
use super::lists::some_route;
use crate::calls::Calls;
use crate::driver::on_any_state;
use crate::reached::Reached;
use crate::ring::Ring;
use crate::states::{any_state, settled};
use crate::trail::Trail;

/// Records of one batch.
const RECORDS: u32 = 12;
/// Routes on each, and steps between them.
const ROUTES: u32 = 4;

/// Some records, some calls on each.
pub fn batch(
    generator: &mut Generator,
    calls: Calls,
    _number: u64,
    reached: &mut Reached,
) -> Result<(), String> {
    for _ in 0..RECORDS {
        let state = some_state(generator);
        let mut ring = Ring::new(generator, calls, state);
        let mut trail = Trail::new(format!("{:?}", ring.state));
        if !well_formed(ring.words()) {
            return Err(trail.tell("the record drawn is not well formed"));
        }
        for _ in 0..ROUTES {
            let mut route = some_route(generator, &ring.state);
            trail.push_route(route.hub, route.numbers(), route.room());
            let called = ring.route(&mut route, Source::Any, &mut reached.routes);
            called.map_err(|what| trail.tell(&what))?;
            let command = on_any_state(generator, &ring.state);
            trail.push(command);
            let _ = ring.step(generator, command, reached).map_err(|what| trail.tell(&what))?;
        }
    }
    Ok(())
}

/// Any state, or a ring at rest; with room and tickets for a list, or for a part of it.
fn some_state(generator: &mut Generator) -> State {
    let rests = generator.chance(25);
    let mut state = if rests { settled(generator) } else { any_state(generator) };
    if generator.chance(40) {
        fill(generator, &mut state);
    }
    if generator.chance(30) {
        state.asked = u32::MAX - some_left(generator);
        let last = state.asked - 1;
        state.messages.iter_mut().for_each(|message| message.b = message.b.min(last));
    }
    state
}

/// As many messages as leave room for a part of a list.
fn fill(generator: &mut Generator, state: &mut State) {
    let room = some_left(generator) as usize;
    let [from, to] = [(); 2].map(|()| generator.below(state.n()));
    let other = Message { kind: LEAVEDONE, from, to, a: 0, b: 0, hops: 0 };
    state.messages.resize(MAX_MESSAGES - room, other);
}

/// None, few, or as many as a list has numbers and some more.
fn some_left(generator: &mut Generator) -> u32 {
    match generator.below(4) {
        0 => generator.below(4),
        1 => generator.below(12),
        _ => generator.below(MAX_NUMBERS as u32 + 3),
    }
}
