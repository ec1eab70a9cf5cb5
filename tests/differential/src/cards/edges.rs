//! Records, cards and outputs of every length that matters, sound and damaged ones; and foundings
//! with cards, of all numbers of identifiers.

use ring_model::bytes::ANSWER_BYTES;
use ring_model::generator::Generator;
use ring_model::record::State;
use ring_model::Command;

use super::any::any_cards;
use super::calls::CARDS_BYTES;
use super::damaged::card_bytes;
use super::pair::CardPair;
use crate::calls::{Calls, RECORD_BYTES};
use crate::damaged::bytes_of;
use crate::driver::on_any_state;
use crate::form::Form;
use crate::founding::{founders, some_identifiers};
use crate::lengths::record_lengths;
use crate::lent::Lent;
use crate::reached::Reached;
use crate::states::any_state;

/// Lengths of outputs that are tried.
const OUTPUTS: [usize; 8] = [0, 1, 4, 16, 19, 20, 21, 24];

/// All lengths once, and foundings.
pub fn batch(
    generator: &mut Generator,
    calls: Calls,
    _number: u64,
    reached: &mut Reached,
) -> Result<(), String> {
    let state = any_state(generator);
    let typed = any_cards(generator, &state, None, &mut reached.cards);
    let sound = [bytes_of(&state), card_bytes(&typed)];
    for lengths in lengths(generator) {
        let mut pair = CardPair::new(generator, calls, lengths);
        lend(generator, &mut pair, &sound);
        let tell = |what: String| format!("record, cards and output of {lengths:?} bytes: {what}");
        let offered = [generator.next_u32(), generator.below(3), generator.below(3)];
        pair.offer(offered, &mut reached.cards).map_err(tell)?;
        let command = some_command(generator, &state);
        pair.step(command, &mut reached.cards).map_err(tell)?;
    }
    foundings(generator, calls, reached)
}

/// Lengths of cards: none to some words, around the slice's, and longer.
fn card_lengths() -> impl Iterator<Item = usize> {
    let near = CARDS_BYTES - 9..=CARDS_BYTES + 9;
    [0, 1, 3, 4, 260, 264, 276].into_iter().chain(near).chain([2 * CARDS_BYTES])
}

/// Record, cards and output: each length of one with others around enough.
fn lengths(generator: &mut Generator) -> Vec<[usize; 3]> {
    let mut all = Vec::new();
    let around = |generator: &mut Generator, enough: usize| match generator.below(6) {
        0 => enough - 1 - generator.below(8) as usize,
        _ => enough + generator.below(6) as usize,
    };
    let output = |generator: &mut Generator| match generator.below(8) {
        0 => OUTPUTS[generator.below(8) as usize],
        _ => ANSWER_BYTES + generator.below(4) as usize,
    };
    for record in record_lengths() {
        all.push([record, around(generator, CARDS_BYTES), output(generator)]);
    }
    for cards in card_lengths() {
        all.push([around(generator, RECORD_BYTES), cards, output(generator)]);
    }
    for out in OUTPUTS {
        all.push([around(generator, RECORD_BYTES), around(generator, CARDS_BYTES), out]);
    }
    all
}

/// Lends a sound record and slice, as far as there is room, or damaged ones.
fn lend(generator: &mut Generator, pair: &mut CardPair, [record, cards]: &[Vec<u8>; 2]) {
    pair.record.put(record);
    pair.cards.put(cards);
    let wrong = generator.next_u32().to_le_bytes();
    match generator.below(6) {
        0 => pair.record.put(&wrong),
        1 => pair.cards.put(&wrong),
        2 => {
            pair.record.put(&wrong);
            pair.cards.put(&wrong);
        }
        _ => {}
    }
}

/// A command that fits, or one with an operation that does not exist.
fn some_command(generator: &mut Generator, state: &State) -> Command {
    let command = on_any_state(generator, state);
    match generator.below(6) {
        0 => Command { operation: 4, ..command },
        _ => command,
    }
}

/// Foundings of both forms with lists of each length.
fn foundings(generator: &mut Generator, calls: Calls, reached: &mut Reached) -> Result<(), String> {
    for count in [0, 1, 2, 3, 5, 8, 31, 63, 64, 65, 66, 100] {
        let repeats = generator.chance(30);
        let bytes = some_identifiers(generator, count, repeats);
        found(generator, calls, Form::Smallest, &bytes, reached)?;
        for founder in founders(generator, count as u32) {
            found(generator, calls, Form::By(founder), &bytes, reached)?;
        }
    }
    Ok(())
}

/// One founding of both, compared, in a record and a slice of some lengths with anything in them.
fn found(
    generator: &mut Generator,
    calls: Calls,
    form: Form,
    identifiers: &[u8],
    reached: &mut Reached,
) -> Result<(), String> {
    let some = |generator: &mut Generator, enough: usize| match generator.below(8) {
        0 => enough - 1 - generator.below(9) as usize,
        _ => enough + generator.below(6) as usize,
    };
    let lengths = [some(generator, RECORD_BYTES), some(generator, CARDS_BYTES), 0];
    let over = generator.below(4) as usize;
    let mut lent = Lent::holding(generator, identifiers, over);
    let mut pair = CardPair::new(generator, calls, lengths);
    let founded = pair.found(form, &mut lent, &mut reached.cards);
    founded.map_err(|what| format!("of {lengths:?} bytes: {what}"))
}
