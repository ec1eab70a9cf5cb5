//! Wrong orders of the questions, questions that are not asked, and refused calls that write: what
//! is wrong, the part that must see it, and the call.

use ring_model::bytes::{ANSWER_BYTES, NO_REFUSAL};
use ring_model::record::State;
use ring_model::refusal::{NOT_AS_REQUIRED, NOT_WELL_FORMED, OUTPUT_SHORT, RECORD_SHORT};

use super::{mark_if_refused, SELDOM};
use crate::calls::{words_of, RECORD_BYTES};
use crate::cards::calls::{Offer, StepCards, CARDS_BYTES};
use crate::engine::{self, offer, step_cards};
use crate::faults::one_in;

/// The wrong steps.
pub const STEPS: [(&str, &str, StepCards); 13] = [
    ("the cards' 1 is not asked", "card_edges", |words, cards, command, out| {
        let [operation, x, y] = command;
        match step_cards(words, cards, command, out) {
            RECORD_SHORT if is_long(words) => engine::step(words, operation, x, y, out),
            code => code,
        }
    }),
    ("the cards' 1 is asked after the record's 2", "card_edges", |words, cards, command, out| {
        later(step_cards(words, cards, command, out), words)
    }),
    ("the cards' 2 is not asked", "damaged_cards", |words, cards, command, out| {
        let [operation, x, y] = command;
        match step_cards(words, cards, command, out) {
            NOT_WELL_FORMED => engine::step(words, operation, x, y, out),
            code => code,
        }
    }),
    (
        "the cards' 2 is asked after the step's own",
        "damaged_cards",
        |words, cards, command, out| {
            let [operation, x, y] = command;
            let mut copy = words.to_vec();
            match step_cards(words, cards, command, out) {
                NOT_WELL_FORMED => {
                    match engine::step(&mut copy, operation, x, y, &mut [0; ANSWER_BYTES]) {
                        NO_REFUSAL => NOT_WELL_FORMED,
                        own => own,
                    }
                }
                code => code,
            }
        },
    ),
    (
        "17 is asked after the cards' 1",
        "card_edges",
        |words, cards, command, out| match step_cards(words, cards, command, out) {
            OUTPUT_SHORT if cards.len() < CARDS_BYTES => RECORD_SHORT,
            code => code,
        },
    ),
    (
        "17 is asked after the record's 1",
        "card_edges",
        |words, cards, command, out| match step_cards(words, cards, command, out) {
            OUTPUT_SHORT if !is_long(words) => RECORD_SHORT,
            code => code,
        },
    ),
    ("bytes left over make the cards' last word", "card_edges", |words, cards, command, out| {
        let mut longer = cards.to_vec();
        longer.resize(cards.len().div_ceil(4) * 4, 0);
        step_cards(words, &mut longer, command, out)
    }),
    ("longer cards are refused", "cards", |words, cards, command, out| {
        match cards.len() >= CARDS_BYTES + 4 {
            true => RECORD_SHORT,
            false => step_cards(words, cards, command, out),
        }
    }),
    ("a refused step writes its cards", "cards", |words, cards, command, out| {
        mark_if_refused(step_cards(words, cards, command, out), cards)
    }),
    ("a refused step with cards writes its record", "cards", |words, cards, command, out| {
        mark_if_refused(step_cards(words, cards, command, out), words)
    }),
    ("a refused step with cards writes its output", "cards", |words, cards, command, out| {
        mark_if_refused(step_cards(words, cards, command, out), out)
    }),
    ("a byte behind the cards is written, seldom", "cards", |words, cards, command, out| {
        let code = step_cards(words, cards, command, out);
        if cards.len() > CARDS_BYTES && one_in(SELDOM) {
            cards[CARDS_BYTES] ^= 1;
        }
        code
    }),
    // Only on the copies on which deliveries are tried, and where there is no byte too many.
    ("a message that waits is refused, with cards", "cards", |words, cards, command, out| {
        match [words.len(), cards.len()] == [RECORD_BYTES, CARDS_BYTES] && one_in(SELDOM) {
            true => NOT_AS_REQUIRED,
            false => step_cards(words, cards, command, out),
        }
    }),
];

/// The wrong offers.
pub const OFFERS: [(&str, &str, Offer); 6] = [
    ("an offer asks the cards' 1 after the record's 2", "card_edges", |words, cards, offered| {
        later(offer(words, cards, offered), words)
    }),
    ("an offer does not ask the cards' 2", "damaged_cards", |words, cards, offered| {
        match offer(words, cards, offered) {
            NOT_WELL_FORMED if State::read(&words_of(words)).is_ok() => NO_REFUSAL,
            code => code,
        }
    }),
    ("an offer does not ask the record's 2", "card_edges", |words, cards, offered| {
        match offer(words, cards, offered) {
            NOT_WELL_FORMED if State::read(&words_of(words)).is_err() => NO_REFUSAL,
            code => code,
        }
    }),
    ("an offer does not ask the record's 1", "card_edges", |words, cards, offered| {
        match offer(words, cards, offered) {
            RECORD_SHORT if !is_long(words) => NO_REFUSAL,
            code => code,
        }
    }),
    ("a refused offer writes", "cards", |words, cards, offered| {
        mark_if_refused(offer(words, cards, offered), cards)
    }),
    ("an offer writes a byte behind the cards, seldom", "cards", |words, cards, offered| {
        let code = offer(words, cards, offered);
        if cards.len() > CARDS_BYTES && one_in(SELDOM) {
            cards[CARDS_BYTES] ^= 1;
        }
        code
    }),
];

fn is_long(words: &[u8]) -> bool {
    words.len() >= RECORD_BYTES
}

/// The cards' 1, where the record's 2 comes first.
fn later(code: u32, words: &[u8]) -> u32 {
    match code {
        RECORD_SHORT if is_long(words) && State::read(&words_of(words)).is_err() => NOT_WELL_FORMED,
        _ => code,
    }
}
