//! The model's states: of fresh rings, and random ones that make well-formed records, most of which
//! no run reaches.

use ring_model::generator::Generator;
use ring_model::record::{State, INSIDE, MAX_NODES, RECORD_WORDS};

use crate::calls::words_of;
use crate::form::Form;
use crate::identifiers::{identifiers, ring_size};

/// The state of the ring that is founded in this form with these identifiers, which differ.
pub fn founded(names: &[u32], form: Form) -> State {
    let mut words = vec![0; RECORD_WORDS];
    let state = form.on_words(&mut words, names).and_then(|()| State::read(&words));
    state.expect("different identifiers found a ring")
}

/// The state that a record stands for, which a call of the model has left.
pub fn state_of(record: &[u8]) -> Result<State, String> {
    let state = State::read(&words_of(record));
    state.map_err(|number| format!("the record that is left is refused by {number}"))
}

/// A ring at rest with all of its nodes inside, of any size, often the largest.
pub fn settled(generator: &mut Generator) -> State {
    let n = if generator.chance(30) { MAX_NODES } else { ring_size(generator) };
    let names = identifiers(generator, n);
    let mut clockwise: Vec<u32> = (0..n as u32).collect();
    clockwise.sort_by_key(|&node| names[node as usize]);
    let mut state = founded(&names, Form::Smallest);
    for (place, &node) in clockwise.iter().enumerate() {
        let row = state.row_mut(node);
        row.state = INSIDE;
        row.pred = clockwise[(place + n - 1) % n];
        row.succ = clockwise[(place + 1) % n];
    }
    state
}

/// Any well-formed state, of a ring of any size.
pub fn any_state(generator: &mut Generator) -> State {
    let n = ring_size(generator);
    let names = identifiers(generator, n);
    ring_model::states::any_state(generator, names)
}
