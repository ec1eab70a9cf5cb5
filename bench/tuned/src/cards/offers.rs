//! An offered card.

use super::book::{self, Book, CARDS, CARD_WORDS, MACHINE, MOST_CARDS, PRICE, REVISION};
use super::{checked, homes};
use crate::check::Check;
use crate::record::Record;
use crate::refusal;
use crate::word::Word;

/// Offers a card; its hub is filled in. Answers whether a word was written.
pub fn offer<C: Check, W: Word>(
    words: &[W],
    cards: &mut [W],
    machine: u32,
    revision: u32,
    price: u32,
) -> Result<bool, u32> {
    checked::<C, W>(words, cards)?;
    let (Some(record), Some(book)) = (words.first_chunk(), cards.first_chunk_mut()) else {
        return Err(refusal::RECORD_SHORT);
    };
    let Some(place) = place(book, machine, revision, price)? else {
        return Ok(false);
    };
    write(record, book, place, [machine, revision, price]);
    Ok(true)
}

/// Where the card goes: nowhere if it is there already.
fn place<W: Word>(
    book: &Book<W>,
    machine: u32,
    revision: u32,
    price: u32,
) -> Result<Option<usize>, u32> {
    let (cards, _) = book::cards(book).unwrap_or((&[], &[]));
    let mut kept = cards.chunks_exact(CARD_WORDS);
    let count = kept.len();
    let Some(place) = kept.position(|card| card[MACHINE].get() == machine) else {
        return if count < MOST_CARDS {
            Ok(Some(count))
        } else {
            Err(refusal::CARDS_FULL)
        };
    };
    let card = &cards[CARD_WORDS * place..];
    match revision.cmp(&card[REVISION].get()) {
        std::cmp::Ordering::Less => Err(refusal::REVISION_LOWER),
        std::cmp::Ordering::Greater => Ok(Some(place)),
        std::cmp::Ordering::Equal if price != card[PRICE].get() => Err(refusal::PRICE_DIFFERS),
        std::cmp::Ordering::Equal => Ok(None),
    }
}

/// Writes the card, and counts it where it is the last.
fn write<W: Word>(record: &Record<W>, book: &mut Book<W>, place: usize, card: [u32; 3]) {
    let [machine, revision, price] = card;
    let hub = homes::owner(record, book, machine);
    let start = CARDS + CARD_WORDS * place;
    book[start..start + CARD_WORDS].copy_from_slice(&[machine, revision, price, hub].map(W::of));
    let count = book[0].get().max(place as u32 + 1);
    book[0] = W::of(count);
}
