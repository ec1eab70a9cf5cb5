//! Wrong steps at entered and gone, and where the only member would be struck off: what is wrong,
//! the part that must see it, and the call.

use ring_model::answer::{ENTERED, GONE};
use ring_model::bytes::{ANSWER_BYTES, NO_REFUSAL};
use ring_model::cards::{FIRST_CARD, FIRST_MEMBER};
use ring_model::refusal::{NOT_AS_REQUIRED, NOT_WELL_FORMED};

use super::{card, count, identifiers, members};
use crate::calls::{put_word, put_words, word_at, words_of};
use crate::cards::any::nearest;
use crate::cards::calls::StepCards;
use crate::engine::{self, step_cards};

/// The wrong steps.
pub const STEPS: [(&str, &str, StepCards); 17] = [
    ("at gone cards stay where they were", "cards", |words, cards, command, out| {
        at(GONE, words, cards, command, out, stay)
    }),
    ("at entered cards stay where they were", "cards", |words, cards, command, out| {
        at(ENTERED, words, cards, command, out, stay)
    }),
    ("at entered all cards go to the newcomer", "cards", |words, cards, command, out| {
        at(ENTERED, words, cards, command, out, |at| {
            let hub = at.hub;
            at.each(|_, _, _| Some(hub));
        })
    }),
    ("at entered a card at the newcomer's number stays", "cards", |words, cards, command, out| {
        at(ENTERED, words, cards, command, out, |at| {
            let number = at.identifiers[at.hub as usize];
            at.each(|machine, before, _| (machine == number).then_some(before));
        })
    }),
    ("at gone cards go to the hub before", "cards", |words, cards, command, out| {
        at(GONE, words, cards, command, out, |at| {
            let (before, hub) = (at.hub_before(), at.hub);
            at.each(|_, kept_by, _| (kept_by == hub).then_some(before));
        })
    }),
    ("a hub that has gone stays a member", "cards", |words, cards, command, out| {
        at(GONE, words, cards, command, out, |at| at.after[FIRST_MEMBER + at.hub as usize] = 1)
    }),
    ("a hub that has entered is no member", "cards", |words, cards, command, out| {
        at(ENTERED, words, cards, command, out, |at| at.after[FIRST_MEMBER + at.hub as usize] = 0)
    }),
    ("the first card stays where it was", "cards", |words, cards, command, out| {
        at(ENTERED, words, cards, command, out, |at| at.keep(0))
    }),
    ("the 512th card stays where it was", "any_cards", |words, cards, command, out| {
        at(GONE, words, cards, command, out, |at| at.keep(511))
    }),
    ("cards change their order with their hub", "cards", |words, cards, command, out| {
        at(ENTERED, words, cards, command, out, |at| {
            let used = FIRST_CARD + 4 * count(&at.after);
            if used > FIRST_CARD {
                at.after[FIRST_CARD..used].rotate_left(4);
            }
        })
    }),
    ("the only member is struck off", "any_cards", |words, cards, command, out| {
        at_last(words, cards, command, out, |words, cards, [operation, x, y], out| {
            let code = engine::step(words, operation, x, y, out);
            put_word(cards, FIRST_MEMBER + x as usize, 0);
            code
        })
    }),
    (
        "the only member stays, and the step is accepted",
        "any_cards",
        |words, cards, command, out| {
            at_last(words, cards, command, out, |words, _, [operation, x, y], out| {
                engine::step(words, operation, x, y, out)
            })
        },
    ),
    ("the only member stays, and the record changes", "any_cards", |words, cards, command, out| {
        at_last(words, cards, command, out, |words, _, [operation, x, y], _| {
            engine::step(words, operation, x, y, &mut [0; ANSWER_BYTES]);
            NOT_WELL_FORMED
        })
    }),
    ("the only member stays, and the output changes", "any_cards", |words, cards, command, out| {
        at_last(words, cards, command, out, |words, _, [operation, x, y], out| {
            engine::step(&mut words.to_vec(), operation, x, y, out);
            NOT_WELL_FORMED
        })
    }),
    ("2 for a gone hub that is no member", "any_cards", |words, cards, command, out| {
        refused_if(words, cards, command, out, |slice, hub| !members(slice).contains(&hub))
    }),
    ("2 for a gone hub that is one of two members", "any_cards", |words, cards, command, out| {
        refused_if(words, cards, command, out, |slice, _| members(slice).len() == 2)
    }),
    ("the last question is asked before 10", "any_cards", |words, cards, command, out| {
        let only = members(&words_of(cards)) == [command[1]];
        match step_cards(words, cards, command, out) {
            NOT_AS_REQUIRED if only => NOT_WELL_FORMED,
            code => code,
        }
    }),
];

/// A slice before and after an answer, the hub that the answer names, and the identifiers.
struct At {
    before: Vec<u32>,
    after: Vec<u32>,
    hub: u32,
    identifiers: Vec<u32>,
}

impl At {
    /// Puts another hub to each card for which there is one, by its machine and both hubs.
    fn each(&mut self, other: impl Fn(u32, u32, u32) -> Option<u32>) {
        for place in 0..count(&self.after) {
            let before = card(&mut self.before, place)[3];
            let after = card(&mut self.after, place);
            if let Some(hub) = other(after[0], before, after[3]) {
                after[3] = hub;
            }
        }
    }

    /// Leaves a card where it was.
    fn keep(&mut self, place: usize) {
        if place < count(&self.after) {
            card(&mut self.after, place)[3] = card(&mut self.before, place)[3];
        }
    }

    /// The member last passed clockwise before the hub.
    fn hub_before(&self) -> u32 {
        let number = self.identifiers[self.hub as usize];
        let back: Vec<u32> = self.identifiers.iter().map(|name| u32::MAX - name).collect();
        nearest(&back, &members(&self.after), u32::MAX - number)
    }
}

fn stay(at: &mut At) {
    at.each(|_, before, _| Some(before));
}

/// A step whose cards are changed further where it gives this answer.
fn at(
    kind: u32,
    words: &mut [u8],
    cards: &mut [u8],
    command: [u32; 3],
    out: &mut [u8],
    change: impl Fn(&mut At),
) -> u32 {
    let before = words_of(cards);
    let code = step_cards(words, cards, command, out);
    if code == NO_REFUSAL && word_at(out, 0) == kind {
        let (after, hub) = (words_of(cards), word_at(out, 1));
        let mut at = At { before, after, hub, identifiers: identifiers(words) };
        change(&mut at);
        put_words(cards, &at.after);
    }
    code
}

/// A step that does something else where it should be refused by 2, and would be accepted without
/// cards.
fn at_last(
    words: &mut [u8],
    cards: &mut [u8],
    command: [u32; 3],
    out: &mut [u8],
    other: StepCards,
) -> u32 {
    let [operation, x, y] = command;
    let code = step_cards(words, cards, command, out);
    let alone = engine::step(&mut words.to_vec(), operation, x, y, &mut [0; ANSWER_BYTES]);
    match (code, alone) {
        (NOT_WELL_FORMED, NO_REFUSAL) => other(words, cards, command, out),
        _ => code,
    }
}

/// A step that refuses a gone answer by 2 with such a slice and hub.
fn refused_if(
    words: &mut [u8],
    cards: &mut [u8],
    command: [u32; 3],
    out: &mut [u8],
    which: impl Fn(&[u32], u32) -> bool,
) -> u32 {
    let slice = words_of(cards);
    let mut answer = [0; ANSWER_BYTES];
    let code = step_cards(&mut words.to_vec(), &mut cards.to_vec(), command, &mut answer);
    let gone = code == NO_REFUSAL && word_at(&answer, 0) == GONE;
    match gone && which(&slice, word_at(&answer, 1)) {
        true => NOT_WELL_FORMED,
        false => step_cards(words, cards, command, out),
    }
}
