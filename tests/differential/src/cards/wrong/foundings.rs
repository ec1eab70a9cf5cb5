//! Wrong foundings with cards: what is wrong, and the call.

use ring_model::bytes::NO_REFUSAL;
use ring_model::cards::{CARD_SLICE_WORDS, FIRST_CARD, FIRST_MEMBER};
use ring_model::refusal::{
    IDENTIFIERS_REPEAT, IDENTIFIER_COUNT, NOT_WELL_FORMED, NO_FOUNDER, RECORD_SHORT,
};
use ring_model::step::smallest;

use super::mark_if_refused;
use crate::calls::{put_words, words_of, RECORD_BYTES};
use crate::cards::calls::{FreshByCards, FreshCards, CARDS_BYTES};
use crate::engine::{self, fresh_by_cards, fresh_cards};
use crate::wrong_foundings::with_left_over;

/// Wrong foundings by the smallest identifier.
pub const UNNAMED: [(&str, FreshCards); 11] = [
    ("hub 0 is the new slice's member", |words, cards, identifiers| {
        after(fresh_cards(words, cards, identifiers), cards, |slice| mark(slice, &[0]))
    }),
    ("a new slice has no member", |words, cards, identifiers| {
        after(fresh_cards(words, cards, identifiers), cards, |slice| mark(slice, &[]))
    }),
    ("all hubs are the new slice's members", |words, cards, identifiers| {
        let all: Vec<u32> = (0..identifiers.len() as u32 / 4).collect();
        after(fresh_cards(words, cards, identifiers), cards, |slice| mark(slice, &all))
    }),
    ("a new slice keeps the old count", |words, cards, identifiers| {
        let old = words_of(cards);
        after(fresh_cards(words, cards, identifiers), cards, |slice| slice[0] = old[0])
    }),
    ("a new slice keeps the old cards' words", |words, cards, identifiers| {
        let old = words_of(cards);
        after(fresh_cards(words, cards, identifiers), cards, |slice| {
            let cards = FIRST_CARD..CARD_SLICE_WORDS;
            slice[cards.clone()].copy_from_slice(&old[cards]);
        })
    }),
    ("a new slice keeps its last word", |words, cards, identifiers| {
        let old = words_of(cards);
        after(fresh_cards(words, cards, identifiers), cards, |slice| {
            slice[CARD_SLICE_WORDS - 1] = old[CARD_SLICE_WORDS - 1];
        })
    }),
    ("fresh does not ask the cards' 1", |words, cards, identifiers| {
        match fresh_cards(words, cards, identifiers) {
            RECORD_SHORT if words.len() >= RECORD_BYTES => engine::fresh(words, identifiers),
            code => code,
        }
    }),
    ("13 is asked before the cards' 1", |words, cards, identifiers| {
        match (fresh_cards(words, cards, identifiers), identifiers.len()) {
            (RECORD_SHORT, 0..=3 | 260..) if words.len() >= RECORD_BYTES => IDENTIFIER_COUNT,
            (code, _) => code,
        }
    }),
    ("a refused founding writes its cards", |words, cards, identifiers| {
        mark_if_refused(fresh_cards(words, cards, identifiers), cards)
    }),
    ("fresh clears what is behind the cards", |words, cards, identifiers| {
        let code = fresh_cards(words, cards, identifiers);
        if code == NO_REFUSAL {
            cards[CARDS_BYTES..].fill(0);
        }
        code
    }),
    ("fresh reads what the cards were", |words, cards, identifiers| {
        let read = words_of(cards).first().is_some_and(|&count| count > 1 << 31);
        match (fresh_cards(&mut words.to_vec(), &mut cards.to_vec(), identifiers), read) {
            (NO_REFUSAL, true) => NOT_WELL_FORMED,
            _ => fresh_cards(words, cards, identifiers),
        }
    }),
];

/// Wrong foundings by the hub that is named.
pub const NAMED: [(&str, FreshByCards); 6] = [
    ("the smallest is the member, though another founds", |words, cards, identifiers, founder| {
        let smallest = smallest(&words_of(identifiers));
        let code = fresh_by_cards(words, cards, identifiers, founder);
        after(code, cards, |slice| mark(slice, &[smallest]))
    }),
    ("18 is asked before 14, with cards", |words, cards, identifiers, founder| {
        asked_before(IDENTIFIERS_REPEAT, words, cards, identifiers, founder)
    }),
    ("18 is asked before the cards' 1", |words, cards, identifiers, founder| {
        match words.len() >= RECORD_BYTES {
            true => asked_before(RECORD_SHORT, words, cards, identifiers, founder),
            false => fresh_by_cards(words, cards, identifiers, founder),
        }
    }),
    ("a founder that is none is written to the cards", |words, cards, identifiers, founder| {
        mark_if_refused(fresh_by_cards(words, cards, identifiers, founder), cards)
    }),
    ("left-over bytes are read, with cards", |words, cards, identifiers, founder| {
        fresh_by_cards(words, cards, &with_left_over(identifiers), founder)
    }),
    (
        "a named founder of no hub is passed over, with cards",
        |words, cards, identifiers, founder| match fresh_by_cards(
            words,
            cards,
            identifiers,
            founder,
        ) {
            NO_FOUNDER => fresh_cards(words, cards, identifiers),
            code => code,
        },
    ),
];

/// What is made of the slice of a founding that was accepted.
fn after(code: u32, cards: &mut [u8], change: impl Fn(&mut [u32])) -> u32 {
    if code == NO_REFUSAL {
        let mut slice = words_of(cards);
        change(&mut slice);
        put_words(cards, &slice);
    }
    code
}

/// Makes these the members.
fn mark(slice: &mut [u32], members: &[u32]) {
    slice[FIRST_MEMBER..FIRST_CARD].fill(0);
    members.iter().for_each(|&hub| slice[FIRST_MEMBER + hub as usize] = 1);
}

/// Asks 18 before this number.
fn asked_before(
    number: u32,
    words: &mut [u8],
    cards: &mut [u8],
    identifiers: &[u8],
    founder: u32,
) -> u32 {
    match fresh_by_cards(words, cards, identifiers, founder) {
        code if code == number && founder as usize >= identifiers.len() / 4 => NO_FOUNDER,
        code => code,
    }
}
