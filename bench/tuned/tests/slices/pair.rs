//! A record with its cards, and each call made by both models on copies of
//! them.

use ring_model::bytes as plain;
use ring_model::generator::Generator;
use ring_model::{Command, RECORD_WORDS};
use ring_tuned::bytes as tuned;
use ring_tuned::bytes::in_place;
use ring_tuned::{Check, Fields, Ranges};

use crate::shared::{bytes_of, fours_of, words_of, BEFORE};

pub use ring_tuned::BOOK_WORDS;

/// A step with cards and an offer, on bytes.
type Step = fn(&mut [u8], &mut [u8], u32, u32, u32, &mut [u8]) -> u32;
type Offer = fn(&[u8], &mut [u8], u32, u32, u32) -> u32;

/// The words of both, with some behind them.
#[derive(Clone)]
pub struct Pair {
    pub words: Vec<u32>,
    pub book: Vec<u32>,
}

/// Bytes of both, as they are lent, and what a call has returned.
#[derive(Clone, PartialEq)]
pub struct Lent {
    words: Vec<u8>,
    book: Vec<u8>,
    out: Vec<u8>,
    number: u32,
}

impl Pair {
    /// A founding of both models, and what they returned.
    pub fn founded(identifiers: &[u32], named: Option<u32>) -> (Pair, u32) {
        let mut expected = Pair {
            words: vec![9; RECORD_WORDS + 2],
            book: vec![9; BOOK_WORDS + 2],
        };
        let mut pair = expected.clone();
        let (words, book) = (&mut expected.words, &mut expected.book);
        let outcome = match named {
            None => ring_model::cards::fresh_cards(words, book, identifiers),
            Some(founder) => ring_model::cards::fresh_by_cards(words, book, identifiers, founder),
        };
        let (words, book) = (&mut pair.words, &mut pair.book);
        let tuned_outcome = match named {
            None => ring_tuned::fresh_cards(words, book, identifiers),
            Some(founder) => ring_tuned::fresh_by_cards(words, book, identifiers, founder),
        };
        assert_eq!(tuned_outcome, outcome);
        assert!(pair.words == expected.words && pair.book == expected.book);
        (pair, outcome.err().unwrap_or(0))
    }

    /// How many cards the slice says that it has.
    pub fn cards(&self) -> u32 {
        self.book[0]
    }

    /// A word of a card, or of what lies behind the cards.
    pub fn card(&self, place: usize, word: usize) -> u32 {
        self.book.get(65 + 4 * place + word).copied().unwrap_or(0)
    }

    /// Some hub's.
    pub fn identifier(&self, generator: &mut Generator) -> u32 {
        self.words[4 + 7 * generator.below(self.words[1].clamp(1, 64)) as usize]
    }

    /// One step; both go on from what it left.
    pub fn step(&mut self, command: Command) -> u32 {
        let after = self.lent().step_agrees(command, BEFORE.len());
        self.words = words_of(&after.words);
        self.book = words_of(&after.book);
        after.number
    }

    /// One offer; the cards go on from what it left.
    pub fn offer(&mut self, machine: u32, revision: u32, price: u32) -> u32 {
        let after = self.lent().offer_agrees(machine, revision, price);
        self.book = words_of(&after.book);
        after.number
    }

    fn lent(&self) -> Lent {
        self.cut(usize::MAX, usize::MAX)
    }

    /// At most so many bytes of each.
    pub fn cut(&self, words_len: usize, cards_len: usize) -> Lent {
        let (mut words, mut book) = (bytes_of(&self.words), bytes_of(&self.book));
        words.truncate(words_len);
        book.truncate(cards_len);
        Lent {
            words,
            book,
            out: Vec::new(),
            number: 0,
        }
    }
}

impl Lent {
    /// A step with an output of so many bytes, by every model.
    pub fn step_agrees(&self, command: Command, out_len: usize) -> Lent {
        let Command { operation, x, y } = command;
        let expected = self.called(out_len, |words, book, out| {
            plain::ring_step_cards(words, book, operation, x, y, out)
        });
        let step = |way: Step| {
            let same = self.called(out_len, |words, book, out| {
                way(words, book, operation, x, y, out)
            });
            assert!(same == expected, "{command:?}");
        };
        step(tuned::step_cards::<Fields>);
        step(tuned::step_cards::<Ranges>);
        step(step_in_place::<Fields>);
        step(step_in_place::<Ranges>);
        expected
    }

    /// An offer by every model.
    pub fn offer_agrees(&self, machine: u32, revision: u32, price: u32) -> Lent {
        let expected = self.called(0, |words, book, _| {
            plain::ring_offer(words, book, machine, revision, price)
        });
        let offer = |way: Offer| {
            let same = self.called(0, |words, book, _| {
                way(words, book, machine, revision, price)
            });
            assert!(same == expected, "{machine} {revision} {price}");
        };
        offer(tuned::offer::<Fields>);
        offer(tuned::offer::<Ranges>);
        offer(offer_in_place::<Fields>);
        offer(offer_in_place::<Ranges>);
        expected
    }

    /// What a call makes of copies.
    fn called(
        &self,
        out_len: usize,
        call: impl FnOnce(&mut [u8], &mut [u8], &mut [u8]) -> u32,
    ) -> Lent {
        let mut after = self.clone();
        after.out = BEFORE[..out_len].to_vec();
        after.number = call(&mut after.words, &mut after.book, &mut after.out);
        after
    }
}

/// The fours of these bytes, worked on and put back; bytes left over stay.
fn by_fours(bytes: &mut [u8], work: impl FnOnce(&mut [[u8; 4]]) -> u32) -> u32 {
    let mut fours = fours_of(bytes);
    let number = work(&mut fours);
    let whole = 4 * fours.len();
    bytes[..whole].copy_from_slice(&fours.concat());
    number
}

fn step_in_place<C: Check>(
    words: &mut [u8],
    book: &mut [u8],
    operation: u32,
    x: u32,
    y: u32,
    out: &mut [u8],
) -> u32 {
    by_fours(words, |words| {
        by_fours(book, |book| {
            in_place::step_cards::<C>(words, book, operation, x, y, out)
        })
    })
}

fn offer_in_place<C: Check>(
    words: &[u8],
    book: &mut [u8],
    machine: u32,
    revision: u32,
    price: u32,
) -> u32 {
    let words = fours_of(words);
    by_fours(book, |book| {
        in_place::offer::<C>(&words, book, machine, revision, price)
    })
}
