//! The table of what the calls with cards have reached.

use super::{
    CardCounts, CARDS_1, CARDS_2, FRESH, FRESH_BY, OFFER, ONLY_MEMBER, RECORDS_1, RECORDS_2, STEP,
};
use crate::reached::{by_number, Cells};

/// Which numbers each call can give; 0 stands for no refusal.
const OF_FRESH: [usize; 4] = [0, 1, 13, 14];
const OF_FRESH_BY: [usize; 5] = [0, 1, 13, 14, 18];
const OF_STEP: [usize; 14] = [0, 1, 2, 3, 4, 5, 6, 7, 8, 9, 10, 11, 12, 17];
const OF_OFFER: [usize; 6] = [0, 1, 2, 22, 23, 24];
/// What offers to a full slice come to.
const OF_FULL: [usize; 5] = [1, 2, 3, 4, 5];
/// Words that must be refused, and those that may be anything. A hub that is not the kept one is
/// never the owner.
const REFUSED_FIELDS: [usize; 6] = [0, 1, 2, 3, 6, 7];
const FREE_FIELDS: [usize; 3] = [3, 4, 5];

impl CardCounts {
    /// The table: names and counts.
    pub fn rows(&self) -> Vec<(&'static str, Cells)> {
        let mut rows = self.rows_of_calls();
        rows.extend(self.rows_of_cards());
        rows
    }

    fn rows_of_calls(&self) -> Vec<(&'static str, Cells)> {
        let [fresh, fresh_by, step, offer] = &self.numbers;
        let both = [RECORDS_1, CARDS_1];
        let all = [RECORDS_1, CARDS_1, RECORDS_2, CARDS_2, ONLY_MEMBER];
        let asked = |call: usize, which: &[usize]| by_number(which, &self.questions[call]);
        vec![
            ("fresh with cards, 0 or refused by", by_number(&OF_FRESH, fresh)),
            ("fresh with cards: 1 of the record 0, of the cards 1", asked(FRESH, &both)),
            ("fresh with cards by a founder, 0 or refused by", by_number(&OF_FRESH_BY, fresh_by)),
            (
                "fresh with cards by a founder: 1 of the record 0, of the cards 1",
                asked(FRESH_BY, &both),
            ),
            ("steps with cards, 0 or refused by", by_number(&OF_STEP, step)),
            (
                "steps with cards: 1 of the record 0, cards 1; 2 of these 2, 3, asked last 4",
                asked(STEP, &all),
            ),
            ("offers, 0 or refused by", by_number(&OF_OFFER, offer)),
            ("offers: 1 of the record 0, cards 1; 2 of these 2, 3", asked(OFFER, &all[..4])),
        ]
    }

    fn rows_of_cards(&self) -> Vec<(&'static str, Cells)> {
        let two = |counts: &[u64; 2]| by_number(&[0, 1], counts);
        let one = |count: u64| vec![(None, count)];
        let all = [0, 1, 2, 3, 4, 5];
        vec![
            ("cards change hub at entered 0, at gone 1", two(&self.moved)),
            ("512 cards, some change hub at entered 0, at gone 1", two(&self.moved_full)),
            ("no card changes hub at entered 0, at gone 1", two(&self.stayed)),
            ("a member enters 0, a hub goes that is none 1", two(&self.no_change)),
            ("entered and gone in a run with more than 32 in the ledger", one(self.large)),
            ("offers: new 0, higher 1, equal 2, 22 3, 23 4, 24 5", by_number(&all, &self.offers)),
            (
                "offers to 512 cards: higher 1, equal 2, 22 3, 23 4, 24 5",
                by_number(&OF_FULL, &self.offers_full),
            ),
            ("a 512th card", one(self.filled)),
            (
                "words refused: count 0, member 1, no hub 2, machine 3, hub 6, unused 7",
                by_number(&REFUSED_FIELDS, &self.refused),
            ),
            (
                "words changed, well formed: machine 3, revision 4, price 5",
                by_number(&FREE_FIELDS, &self.passed),
            ),
            (
                "a machine twice: first two 0, first and last 1, last two 2, middle 3, any 4",
                by_number(&all[..5], &self.twice),
            ),
            (
                "507 machines or more: at identifiers 0, progression 1, of one hash 2, random 3",
                by_number(&all[..4], &self.sets),
            ),
        ]
    }
}
