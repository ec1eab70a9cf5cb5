//! Wrong offers: what is wrong, the part that must see it, and the call.

use ring_model::bytes::NO_REFUSAL;
use ring_model::cards::{FIRST_CARD, MAX_CARDS};
use ring_model::queries::owner;
use ring_model::refusal::{CARDS_FULL, PRICE_DIFFERS, REVISION_LOWER};

use super::{card, count, identifiers, members, place};
use crate::calls::{put_words, words_of};
use crate::cards::any::nearest;
use crate::cards::calls::Offer;
use crate::engine::offer;

/// The wrong offers.
pub const OFFERS: [(&str, &str, Offer); 19] = [
    ("a lower revision is accepted", "cards", |words, cards, offered| {
        after(words, cards, offered, |slice, code| pass(slice, offered, code, REVISION_LOWER))
    }),
    ("an equal revision with another price is accepted", "cards", |words, cards, offered| {
        after(words, cards, offered, |slice, code| pass(slice, offered, code, PRICE_DIFFERS))
    }),
    ("another price at an equal revision changes nothing", "cards", |words, cards, offered| {
        after(words, cards, offered, |_, code| instead(code, PRICE_DIFFERS, NO_REFUSAL))
    }),
    ("an equal card is 23", "cards", |words, cards, offered| {
        let before = cards.to_vec();
        after(words, cards, offered, |slice, code| match words_of(&before) == slice {
            true => instead(code, NO_REFUSAL, PRICE_DIFFERS),
            false => code,
        })
    }),
    ("23 for a lower revision", "cards", |words, cards, offered| {
        after(words, cards, offered, |_, code| instead(code, REVISION_LOWER, PRICE_DIFFERS))
    }),
    ("22 for another price", "cards", |words, cards, offered| {
        after(words, cards, offered, |_, code| instead(code, PRICE_DIFFERS, REVISION_LOWER))
    }),
    ("24 is asked before 22", "cards", |words, cards, offered| {
        after(words, cards, offered, |slice, code| match count(slice) {
            MAX_CARDS => instead(code, REVISION_LOWER, CARDS_FULL),
            _ => code,
        })
    }),
    ("24 with 511 cards", "cards", |words, cards, offered| {
        let slice = words_of(cards);
        let is_new = place(&slice, offered[0]).is_none();
        match is_new && count(&slice) == MAX_CARDS - 1 {
            true => CARDS_FULL,
            false => offer(words, cards, offered),
        }
    }),
    ("24 for a higher revision", "cards", |words, cards, offered| {
        let full = count(&words_of(cards)) == MAX_CARDS;
        match (full, offer(words, &mut cards.to_vec(), offered)) {
            (true, NO_REFUSAL) => CARDS_FULL,
            _ => offer(words, cards, offered),
        }
    }),
    ("a full slice loses its last card", "cards", |words, cards, offered| {
        let hub = nearest(&identifiers(words), &members(&words_of(cards)), offered[0]);
        after(words, cards, offered, |slice, code| {
            if code == CARDS_FULL {
                let [machine, revision, price] = offered;
                card(slice, MAX_CARDS - 1).copy_from_slice(&[machine, revision, price, hub]);
            }
            instead(code, CARDS_FULL, NO_REFUSAL)
        })
    }),
    ("a new card goes first", "cards", |words, cards, offered| {
        new_card(words, cards, offered, |slice| {
            let used = FIRST_CARD + 4 * count(slice);
            slice[FIRST_CARD..used].rotate_right(4);
        })
    }),
    ("a higher revision goes last", "cards", |words, cards, offered| {
        let at = place(&words_of(cards), offered[0]);
        after(words, cards, offered, |slice, code| {
            let used = FIRST_CARD + 4 * count(slice);
            if let (NO_REFUSAL, Some(at)) = (code, at) {
                slice[FIRST_CARD + 4 * at..used].rotate_left(4);
            }
            code
        })
    }),
    ("a higher revision keeps the price", "cards", |words, cards, offered| {
        let mut before = words_of(cards);
        let kept = place(&before, offered[0]).map(|at| card(&mut before, at)[2]);
        after(words, cards, offered, |slice, code| {
            if let (NO_REFUSAL, Some(at), Some(price)) = (code, place(slice, offered[0]), kept) {
                card(slice, at)[2] = price;
            }
            code
        })
    }),
    ("a higher revision is a second card", "cards", |words, cards, offered| {
        let before = words_of(cards);
        after(words, cards, offered, |slice, code| {
            let used = count(slice);
            if code == NO_REFUSAL && slice[0] == before[0] && slice != before && used < MAX_CARDS {
                let at = place(slice, offered[0]).unwrap_or(0);
                let new = card(slice, at).to_vec();
                slice[..before.len()].copy_from_slice(&before);
                card(slice, used).copy_from_slice(&new);
                slice[0] += 1;
            }
            code
        })
    }),
    ("the hub of a new card is not filled in", "cards", |words, cards, offered| {
        new_card(words, cards, offered, |slice| {
            let last = count(slice) - 1;
            card(slice, last)[3] = 0;
        })
    }),
    ("a machine at an identifier belongs to the next hub", "cards", |words, cards, offered| {
        let names = identifiers(words);
        new_card(words, cards, offered, |slice| {
            let next = nearest(&names, &members(slice), offered[0].wrapping_add(1));
            let last = count(slice) - 1;
            card(slice, last)[3] = next;
        })
    }),
    ("the hub is the one that holds the number", "any_cards", |words, cards, offered| {
        let holder = owner(&words_of(words), offered[0]);
        new_card(words, cards, offered, |slice| {
            let last = count(slice) - 1;
            card(slice, last)[3] = holder.unwrap_or(card(slice, last)[3]);
        })
    }),
    ("revisions are compared with a sign", "cards", |words, cards, offered| {
        let mut slice = words_of(cards);
        let kept = place(&slice, offered[0]).map(|at| card(&mut slice, at)[1] as i32);
        match kept.is_some_and(|kept| kept > offered[1] as i32) {
            true => REVISION_LOWER,
            false => offer(words, cards, offered),
        }
    }),
    ("machines are compared by their low bits", "cards", |words, cards, offered| {
        let mut slice = words_of(cards);
        let alike = |machine: u32| machine != offered[0] && (machine ^ offered[0]) & 0xFFFF == 0;
        let met = (0..count(&slice)).any(|at| alike(card(&mut slice, at)[0]));
        match met && place(&slice, offered[0]).is_none() {
            true => PRICE_DIFFERS,
            false => offer(words, cards, offered),
        }
    }),
];

/// An offer, and what is made of its slice and number.
fn after(
    words: &[u8],
    cards: &mut [u8],
    offered: [u32; 3],
    change: impl Fn(&mut [u32], u32) -> u32,
) -> u32 {
    let code = offer(words, cards, offered);
    let mut slice = words_of(cards);
    let other = change(&mut slice, code);
    put_words(cards, &slice);
    other
}

/// An offer, and what is made of the slice where it has one card more.
fn new_card(words: &[u8], cards: &mut [u8], offered: [u32; 3], change: impl Fn(&mut [u32])) -> u32 {
    let before = count(&words_of(cards));
    after(words, cards, offered, |slice, code| {
        if count(slice) > before {
            change(slice);
        }
        code
    })
}

/// An offer that is made as the wrong ones are, and is not wrong.
pub fn same(words: &[u8], cards: &mut [u8], offered: [u32; 3]) -> u32 {
    new_card(words, cards, offered, |_| {})
}

/// Another number for this one.
fn instead(code: u32, number: u32, other: u32) -> u32 {
    match code == number {
        true => other,
        false => code,
    }
}

/// Puts revision and price in the place of a card where the offer was refused by this number.
fn pass(slice: &mut [u32], [machine, revision, price]: [u32; 3], code: u32, number: u32) -> u32 {
    if let (true, Some(at)) = (code == number, place(slice, machine)) {
        card(slice, at)[1..3].copy_from_slice(&[revision, price]);
    }
    instead(code, number, NO_REFUSAL)
}
