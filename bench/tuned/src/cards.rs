//! Price cards beside a record (document 02, 2026-04): a fresh ring with its
//! card slice, the step that takes the cards along, and the offer.
//!
//! The test of a slice looks at each card a few times and never at pairs of
//! them: which machines stand twice is seen by places in a table, who owns a
//! machine by what each member owns, which is worked out once a call.

use crate::answer::{kind, Answer};
use crate::check::Check;
use crate::record::{Record, RECORD_WORDS};
use crate::refusal;
use crate::step::{fresh_by, run, smallest};
use crate::well_formed::well_formed;
use crate::word::Word;

mod book;
mod homes;
mod machines;
mod moves;
mod offers;

pub use book::{Book, BOOK_WORDS, MOST_CARDS};
pub use offers::offer;

use book::{alone, MARKS};
use homes::Homes;

/// Founds a ring and makes its card slice: no card, the founder alone marked.
pub fn fresh_cards<W: Word>(
    words: &mut [W],
    cards: &mut [W],
    identifiers: &[W],
) -> Result<(), u32> {
    fresh_by_cards(words, cards, identifiers, smallest(identifiers))
}

/// The same, by the hub that is named.
pub fn fresh_by_cards<W: Word>(
    words: &mut [W],
    cards: &mut [W],
    identifiers: &[W],
    founder: u32,
) -> Result<(), u32> {
    if words.len() < RECORD_WORDS || cards.len() < BOOK_WORDS {
        return Err(refusal::RECORD_SHORT);
    }
    fresh_by(words, identifiers, founder)?;
    cards[..BOOK_WORDS].fill(W::of(0));
    cards[MARKS + founder as usize] = W::of(1);
    Ok(())
}

/// One command; where a hub has entered or gone, the cards change hub.
pub fn step_cards<C: Check, W: Word>(
    words: &mut [W],
    cards: &mut [W],
    operation: u32,
    x: u32,
    y: u32,
) -> Result<Answer, u32> {
    checked::<C, W>(words, cards)?;
    let (Some(record), Some(book)) = (words.first_chunk_mut(), cards.first_chunk_mut()) else {
        return Err(refusal::RECORD_SHORT);
    };
    let strikes_off_the_last = |answer: Answer| {
        if answer.kind == kind::GONE && alone(book, answer.hub) {
            Err(refusal::NOT_WELL_FORMED)
        } else {
            Ok(())
        }
    };
    let answer = run(record, operation, x, y, strikes_off_the_last)?;
    match answer.kind {
        kind::ENTERED => moves::enter(record, book, answer.hub),
        kind::GONE => moves::leave(record, book, answer.hub),
        _ => {}
    }
    Ok(answer)
}

/// Questions 1 and 2 of record and cards: what each member owns.
fn checked<C: Check, W: Word>(words: &[W], cards: &[W]) -> Result<(), u32> {
    let record: &Record<W> = words.first_chunk().ok_or(refusal::RECORD_SHORT)?;
    let book: &Book<W> = cards.first_chunk().ok_or(refusal::RECORD_SHORT)?;
    if well_formed::<C, W>(record) && book_well_formed::<C, W>(record, book) {
        Ok(())
    } else {
        Err(refusal::NOT_WELL_FORMED)
    }
}

/// Is the card slice well formed beside a record that is?
fn book_well_formed<C: Check, W: Word>(record: &Record<W>, book: &Book<W>) -> bool {
    if book::marks_wrong::<C, W>(record, book) {
        return false;
    }
    let Some((cards, unused)) = book::cards(book) else {
        return false;
    };
    !C::any_set(unused) && Homes::of(record, book).hold(cards) && machines::differ(cards)
}
