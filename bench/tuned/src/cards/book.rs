//! The card slice in its words.

use crate::check::Check;
use crate::record::{Record, MOST_HUBS, N};
use crate::word::Word;

/// Words of a card slice.
pub const BOOK_WORDS: usize = 2113;
/// Most cards.
pub const MOST_CARDS: usize = 512;

/// Where the marks of the hubs and the cards begin.
pub(super) const MARKS: usize = 1;
pub(super) const CARDS: usize = MARKS + MOST_HUBS;
/// Words of a card, and where in it they stand.
pub(super) const CARD_WORDS: usize = 4;
pub(super) const MACHINE: usize = 0;
pub(super) const REVISION: usize = 1;
pub(super) const PRICE: usize = 2;
pub(super) const HUB: usize = 3;
const _: () = assert!(CARDS + MOST_CARDS * CARD_WORDS == BOOK_WORDS);

/// The slice's words, their number known to the compiler.
pub type Book<W> = [W; BOOK_WORDS];

/// The words of the cards, and the unused ones behind them; nothing where there
/// are more cards than the most.
pub(super) fn cards<W: Word>(book: &Book<W>) -> Option<(&[W], &[W])> {
    let count = book[0].get() as usize;
    (count <= MOST_CARDS).then(|| book[CARDS..].split_at(CARD_WORDS * count))
}

/// The cards of a slice that is well formed, one by one, to be changed.
pub(super) fn each_card<W: Word>(book: &mut Book<W>) -> std::slice::ChunksExactMut<'_, W> {
    let end = CARDS + CARD_WORDS * book[0].get() as usize;
    book[CARDS..end].chunks_exact_mut(CARD_WORDS)
}

/// All marks are 0 or 1 and one at least is 1 just where the hubs' marks merge
/// to 1; those of no hub are 0.
pub(super) fn marks_wrong<C: Check, W: Word>(record: &Record<W>, book: &Book<W>) -> bool {
    let (hubs, others) = book[MARKS..CARDS].split_at(record[N].get() as usize);
    hubs.iter().fold(0, |merged, mark| merged | mark.get()) != 1 || C::any_set(others)
}

/// Is this hub marked?
pub(super) fn marked<W: Word>(book: &Book<W>, hub: u32) -> bool {
    book[MARKS + hub as usize].get() == 1
}

/// Is no other hub than this one marked?
pub(super) fn alone<W: Word>(book: &Book<W>, hub: u32) -> bool {
    let marks = book[MARKS..CARDS].iter().enumerate();
    marks.fold(0, |merged, (place, mark)| {
        merged | if place == hub as usize { 0 } else { mark.get() }
    }) == 0
}
