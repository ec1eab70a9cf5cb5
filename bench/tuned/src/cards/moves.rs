//! Cards change hub.

use super::book::{each_card, marked, Book, HUB, MACHINE, MARKS};
use super::homes::{owner, stretch};
use crate::clockwise::distance;
use crate::record::{identifier, Record, N};
use crate::word::Word;

/// The hub is a member from now on and gets what it owns. One that was a member
/// has it already.
pub(super) fn enter<W: Word>(record: &Record<W>, book: &mut Book<W>, hub: u32) {
    let own = identifier(record, hub);
    let members = (0..record[N].get()).filter(|&other| marked(book, other));
    let stretches = members.map(|other| stretch(identifier(record, other), own));
    let owned = stretches.min().unwrap_or(0);
    book[MARKS + hub as usize] = W::of(1);
    for card in each_card(book) {
        let mine = u64::from(distance(card[MACHINE].get(), own)) < owned;
        card[HUB] = if mine { W::of(hub) } else { card[HUB] };
    }
}

/// The hub is a member no longer; another one is, and the next one gets its
/// cards. One that was no member had none.
pub(super) fn leave<W: Word>(record: &Record<W>, book: &mut Book<W>, hub: u32) {
    book[MARKS + hub as usize] = W::of(0);
    let next = owner(record, book, identifier(record, hub));
    for card in each_card(book) {
        let gone = card[HUB].get() == hub;
        card[HUB] = if gone { W::of(next) } else { card[HUB] };
    }
}
