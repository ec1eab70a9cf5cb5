//! A file of frames for `ringrun`: sixteen hubs join, then questions, joins,
//! leaves and deliveries in a mix of which all are accepted.

use ring_model::generator::Generator;
use ring_model::record::State;
use ring_model::step::{fresh_by, step_state};
use ring_model::RECORD_WORDS;

use crate::records::identifier;

const HUBS: u32 = 16;
/// The mix keeps about so many messages waiting.
const WAITING: usize = 24;

/// `count` frames, one a line.
pub fn frames(count: usize) -> Vec<u8> {
    let identifiers: Vec<u32> = (0..HUBS).map(|hub| identifier(HUBS, hub)).collect();
    let mut words = vec![0; RECORD_WORDS];
    // As the first frame does it: by hub 0.
    fresh_by(&mut words, &identifiers, 0).expect("fresh is accepted");
    let mut state = State::read(&words).expect("the record reads");
    let mut generator = Generator::new(2);
    let mut text = String::from("F0");
    text.extend(identifiers.iter().map(|name| format!("{name:08X}")));
    text.push('\n');
    let mut written = 1;
    while written < count {
        let (operation, x, y) = command(&mut generator, &state);
        if step_state(&mut state, operation, x, y).is_ok() {
            text += &format!("{operation:02X}{x:08X}{y:08X}\n");
            written += 1;
        }
    }
    text.into_bytes()
}

/// A command that is likely to be accepted.
fn command(generator: &mut Generator, state: &State) -> (u32, u32, u32) {
    let (one, other) = (generator.below(HUBS), generator.below(HUBS));
    let waiting = state.messages.len();
    match generator.below(100) {
        0..=4 => (1, one, other),
        5 => (2, one, 0),
        _ if waiting < WAITING && generator.chance(60) => (0, one, generator.next_u32()),
        _ => match generator.pick(&state.messages) {
            Some(message) => (3, message.from, message.to),
            None => (0, one, generator.next_u32()),
        },
    }
}
