//! Slices that break one claim each: the checks of the claims must see them. Comparing engine and
//! model cannot show a broken claim, since both might be wrong alike; so these are made by hand.

use ring_model::answer::{ENTERED, GONE};
use ring_model::cards::{CARD_SLICE_WORDS, FIRST_CARD, FIRST_MEMBER};
use ring_model::Answer;

use super::claims::CardClaims;

type Verdict = Result<(), String>;

/// The slice's words that are changed, and words that the verdict must have.
type Case = (&'static str, &'static [(usize, u32)], &'static str);

const CARD_1: usize = FIRST_CARD + 4;
const CARD_2: usize = FIRST_CARD + 8;

/// One claim broken at a time.
const CASES: [Case; 15] = [
    ("a member's word is 0", &[(FIRST_MEMBER + 2, 0)], "hub 2 has the word 0"),
    ("a word of 1 for a hub that has gone", &[(FIRST_MEMBER + 1, 1)], "hub 1 has the word 1"),
    ("a word of 1 for no hub", &[(FIRST_CARD - 1, 1)], "hub 63 has the word 1"),
    ("a member's word is 2", &[(FIRST_MEMBER, 2)], "hub 0 has the word 2"),
    ("a card lost", &[(0, 2)], "2 cards are kept"),
    ("a card too many", &[(0, 4)], "4 cards are kept"),
    ("a card doubled", &[(CARD_2, 150), (CARD_2 + 1, 2), (CARD_2 + 2, 7)], "card 2 is"),
    ("another machine", &[(FIRST_CARD, 51)], "card 0 is"),
    ("another revision", &[(CARD_1 + 1, 1)], "card 1 is"),
    ("another price", &[(CARD_1 + 2, 8)], "card 1 is"),
    ("a refused offer is kept", &[(FIRST_CARD + 1, 4)], "card 0 is"),
    ("a card with the hub that has gone", &[(CARD_1 + 3, 1)], "card 1 is with hub 1"),
    ("a card with the hub before", &[(CARD_1 + 3, 0)], "card 1 is with hub 0"),
    ("a card past zero with the last hub", &[(CARD_2 + 3, 2)], "card 2 is with hub 2"),
    ("a card at a number with the next hub", &[(FIRST_CARD + 3, 2)], "card 0 is with hub 2"),
];

/// Each case by its name, and whether it was seen as what it is.
pub fn cases() -> Vec<(&'static str, bool)> {
    let seen = |verdict: Verdict, words: &str| verdict.is_err_and(|what| what.contains(words));
    let broken = CASES.iter().map(|&(name, changes, words)| (name, seen(with(changes), words)));
    let mut all: Vec<(&str, bool)> = broken.collect();
    all.push(("cards in another order", seen(swapped(), "card 0 is")));
    all.push((
        "a ledger that starts with another hub",
        seen(other_founder(), "hub 0 has the word"),
    ));
    all.push(("a sound slice is not found wrong", with(&[]).is_ok()));
    all
}

/// Hubs 100, 200 and 300; hub 1 came and went, hub 2 came; three cards, one of them replaced.
fn claims(founder: u32) -> CardClaims {
    let mut claims = CardClaims::new(&[100, 200, 300], founder);
    claims.accepted([100, 3, 5]);
    claims.answered(&Answer::naming(ENTERED, 1));
    claims.accepted([150, 1, 6]);
    claims.answered(&Answer::naming(ENTERED, 2));
    claims.accepted([301, 0, 0]);
    claims.accepted([150, 2, 7]);
    claims.answered(&Answer::naming(GONE, 1));
    claims
}

/// The slice that they call for.
fn slice() -> Vec<u32> {
    let mut slice = vec![0; CARD_SLICE_WORDS];
    slice[0] = 3;
    slice[FIRST_MEMBER] = 1;
    slice[FIRST_MEMBER + 2] = 1;
    slice[FIRST_CARD..FIRST_CARD + 12].copy_from_slice(&[100, 3, 5, 0, 150, 2, 7, 2, 301, 0, 0, 0]);
    slice
}

fn with(changes: &[(usize, u32)]) -> Verdict {
    let mut slice = slice();
    changes.iter().for_each(|&(place, word)| slice[place] = word);
    claims(0).judge(&slice)
}

fn swapped() -> Verdict {
    let mut slice = slice();
    slice[FIRST_CARD..FIRST_CARD + 8].rotate_left(4);
    claims(0).judge(&slice)
}

fn other_founder() -> Verdict {
    claims(2).judge(&slice())
}
