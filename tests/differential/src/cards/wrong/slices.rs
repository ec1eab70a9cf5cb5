//! Steps that let a slice pass that is not well formed: what is wrong, and the call.

use ring_model::cards::{CARD_SLICE_WORDS, FIRST_CARD, FIRST_MEMBER, MAX_CARDS};
use ring_model::refusal::NOT_WELL_FORMED;

use super::{card, count, identifiers, members, place};
use crate::calls::{put_words, words_of};
use crate::cards::any::nearest;
use crate::cards::calls::{StepCards, CARDS_BYTES};
use crate::engine::step_cards;

/// The wrong steps.
pub const STEPS: [(&str, StepCards); 13] = [
    ("unused words of the cards are not looked at", |words, cards, command, out| {
        mended(words, cards, command, out, |slice, _| {
            let used = FIRST_CARD + 4 * count(slice);
            slice[used..].fill(0);
        })
    }),
    ("the last word of the cards is not looked at", |words, cards, command, out| {
        mended(words, cards, command, out, |slice, _| {
            if count(slice) < MAX_CARDS {
                slice[CARD_SLICE_WORDS - 1] = 0;
            }
        })
    }),
    ("a count of 513 is 512", |words, cards, command, out| {
        mended(words, cards, command, out, |slice, _| slice[0] = slice[0].min(MAX_CARDS as u32))
    }),
    ("a hub's word of 2 is 1", |words, cards, command, out| {
        mended(words, cards, command, out, |slice, _| {
            let marks = &mut slice[FIRST_MEMBER..FIRST_CARD];
            marks.iter_mut().for_each(|mark| *mark = (*mark).min(1));
        })
    }),
    ("a hub's lowest bit alone counts", |words, cards, command, out| {
        mended(words, cards, command, out, |slice, _| {
            slice[FIRST_MEMBER..FIRST_CARD].iter_mut().for_each(|mark| *mark &= 1);
        })
    }),
    ("a member that is no hub passes", |words, cards, command, out| {
        mended(words, cards, command, out, |slice, names| {
            slice[FIRST_MEMBER + names.len()..FIRST_CARD].fill(0);
        })
    }),
    ("a slice without a member passes", |words, cards, command, out| {
        mended(words, cards, command, out, |slice, names| {
            if members(slice).is_empty() {
                slice[FIRST_MEMBER] = 1;
                owned(slice, names, |_| true);
            }
        })
    }),
    ("a card's hub is not looked at", |words, cards, command, out| {
        mended(words, cards, command, out, |slice, names| owned(slice, names, |_| true))
    }),
    ("a card may be with any member", |words, cards, command, out| {
        mended(words, cards, command, out, |slice, names| {
            let members = members(slice);
            owned(slice, names, |hub| members.contains(&hub));
        })
    }),
    ("two cards of one machine pass", |words, cards, command, out| {
        mended(words, cards, command, out, |slice, names| differ(slice, names, |_, _| true))
    }),
    ("two cards of one machine pass if they are apart", |words, cards, command, out| {
        mended(words, cards, command, out, |slice, names| {
            differ(slice, names, |one, other| one + 1 < other);
        })
    }),
    ("two cards of one machine pass if they are neighbours", |words, cards, command, out| {
        mended(words, cards, command, out, |slice, names| {
            differ(slice, names, |one, other| one + 1 == other);
        })
    }),
    ("the last card's machine is not compared", |words, cards, command, out| {
        mended(words, cards, command, out, |slice, names| {
            let last = count(slice).saturating_sub(1);
            differ(slice, names, |_, other| other == last);
        })
    }),
];

/// A step that takes cards for those that they become when they are mended, if they are none.
fn mended(
    words: &mut [u8],
    cards: &mut [u8],
    command: [u32; 3],
    out: &mut [u8],
    mend: impl Fn(&mut [u32], &[u32]),
) -> u32 {
    match step_cards(words, cards, command, out) {
        NOT_WELL_FORMED => {
            let mut slice = words_of(&cards[..CARDS_BYTES]);
            mend(&mut slice, &identifiers(words));
            let mut copy = vec![0; CARDS_BYTES];
            put_words(&mut copy, &slice);
            step_cards(words, &mut copy, command, out)
        }
        code => code,
    }
}

/// A step that is made as the wrong ones are, and is not wrong.
pub fn same(words: &mut [u8], cards: &mut [u8], command: [u32; 3], out: &mut [u8]) -> u32 {
    mended(words, cards, command, out, |_, _| {})
}

/// Brings each card with such a hub to its owner.
fn owned(slice: &mut [u32], names: &[u32], which: impl Fn(u32) -> bool) {
    let members: Vec<u32> =
        members(slice).into_iter().filter(|&hub| (hub as usize) < names.len()).collect();
    for place in 0..count(slice) {
        let card = card(slice, place);
        if which(card[3]) {
            card[3] = nearest(names, &members, card[0]);
        }
    }
}

/// Gives another machine to a card whose machine stands before it already, at such places.
fn differ(slice: &mut [u32], names: &[u32], which: impl Fn(usize, usize) -> bool) {
    for other in 0..count(slice) {
        let machine = card(slice, other)[0];
        let Some(one) = place(slice, machine).filter(|&one| one < other) else {
            continue;
        };
        let unused = (0..).find(|&number| place(slice, number).is_none());
        if let (true, Some(number)) = (which(one, other), unused) {
            card(slice, other)[0] = number;
        }
    }
    owned(slice, names, |_| true);
}
