//! What it is for a card slice to be well formed beside a record (document
//! 02, 2026-04).

use std::collections::BTreeSet;

use super::{cards, members, Card, CARD_SLICE_WORDS, CARD_WORDS, FIRST_CARD, FIRST_MEMBER};
use super::{Membership, MAX_CARDS};

/// Is the slice well formed beside a record whose hubs have these identifiers?
/// A slice of fewer than 2,113 words holds none.
pub fn well_formed(words: &[u32], identifiers: &[u32]) -> bool {
    if words.len() < CARD_SLICE_WORDS {
        return false;
    }
    let words = &words[..CARD_SLICE_WORDS];
    let (members, cards) = (members(words), cards(words));
    words_are_0_or_1(&words[FIRST_MEMBER..FIRST_CARD])
        && unused_are_0(words)
        && words[0] <= MAX_CARDS as u32
        && members_fit(&members, identifiers.len())
        && machines_differ(&cards)
        && hubs_are_owners(&cards, &Membership::of(identifiers, &members))
}

/// A hub's word says yes or no.
fn words_are_0_or_1(words: &[u32]) -> bool {
    words.iter().all(|&word| word == 0 || word == 1)
}

/// Whether all words behind the last card are 0.
fn unused_are_0(words: &[u32]) -> bool {
    let used = FIRST_CARD + CARD_WORDS * words[0] as usize;
    words.iter().skip(used).all(|&word| word == 0)
}

/// Some hub is a member, and no member is missing from the record.
fn members_fit(members: &[u32], n: usize) -> bool {
    !members.is_empty() && members.iter().all(|&hub| (hub as usize) < n)
}

/// No machine has two cards.
fn machines_differ(cards: &[Card]) -> bool {
    let machines: BTreeSet<u32> = cards.iter().map(|card| card.machine).collect();
    machines.len() == cards.len()
}

/// Each card is where it belongs.
fn hubs_are_owners(cards: &[Card], membership: &Membership) -> bool {
    let with_owner = |card: &Card| membership.owner(card.machine) == Some(card.hub);
    cards.iter().all(with_owner)
}
