//! The table of what the routes have reached.

use super::{RouteCounts, Source};
use crate::reached::{by_number, Cells};

/// Which numbers a route can give; 0 stands for no refusal.
const OF_ROUTE: [usize; 3] = [0, 25, 26];
const OF_DAMAGED: [usize; 4] = [0, 2, 25, 26];
const OF_LENGTHS: [usize; 5] = [0, 1, 2, 25, 26];
/// Which numbers its questions can give. From fresh on there are tickets enough.
const OF_QUESTION: [usize; 4] = [0, 4, 5, 11];
const OF_ANY_QUESTION: [usize; 5] = [0, 4, 5, 11, 12];
/// Where a list fills the record: from fresh on, with cards, on any record.
const FILLED: [usize; 3] = [Source::Fresh as usize, Source::Cards as usize, Source::Any as usize];

impl RouteCounts {
    /// The table: names and counts.
    pub fn rows(&self) -> Vec<(&'static str, Cells)> {
        let mut rows = self.rows_of_numbers();
        rows.extend(self.rows_of_lists());
        rows.extend(self.rows_of_lengths());
        rows
    }

    fn rows_of_numbers(&self) -> Vec<(&'static str, Cells)> {
        let [fresh, cards, any, damaged, lengths] = &self.numbers;
        let [in_fresh, in_cards, in_any, ..] = &self.questions;
        vec![
            ("routes from fresh on, 0 or refused by", by_number(&OF_ROUTE, fresh)),
            ("routes with cards, 0 or refused by", by_number(&OF_ROUTE, cards)),
            ("routes on any record, 0 or refused by", by_number(&OF_ROUTE, any)),
            ("routes on damaged records, 0 or refused by", by_number(&OF_DAMAGED, damaged)),
            ("routes of any length, 0 or refused by", by_number(&OF_LENGTHS, lengths)),
            (
                "routes refused by 1 and 25: 0, 1 and 26: 1, 2 and 25: 2, 2 and 26: 3, 25 and 26: 4",
                by_number(&[0, 1, 2, 3, 4], &self.both),
            ),
            ("questions of routes from fresh on, 0 or refused by", by_number(&OF_QUESTION, in_fresh)),
            ("questions of routes with cards, 0 or refused by", by_number(&OF_QUESTION, in_cards)),
            (
                "questions of routes on any record, 0 or refused by",
                by_number(&OF_ANY_QUESTION, in_any),
            ),
        ]
    }

    fn rows_of_lists(&self) -> Vec<(&'static str, Cells)> {
        let one = |count: u64| vec![(None, count)];
        vec![
            ("questions of routes asked one by one as well", one(self.asked)),
            ("questions of routes: sent on 0, found 1", by_number(&[0, 1], &self.kinds)),
            (
                "routes that fill the record: from fresh on 0, with cards 1, any 2",
                by_number(&FILLED, &self.filled),
            ),
            (
                "routes with a found one behind an 11: from fresh on 0, with cards 1, any 2",
                by_number(&FILLED, &self.found_behind),
            ),
            (
                "routes whose tickets run out 0, with the last number 1",
                by_number(&[0, 1], &self.tickets),
            ),
            (
                "routes at hubs by their state; at none 5",
                by_number(&[0, 1, 2, 3, 4, 5], &self.states),
            ),
            ("routes with a number twice", one(self.twice)),
            (
                "with cards, after a route: entered 0, gone 1, offers accepted 2",
                by_number(&[0, 1, 2], &self.then),
            ),
        ]
    }

    fn rows_of_lengths(&self) -> Vec<(&'static str, Cells)> {
        let four = |counts: &[u64; 4]| by_number(&[0, 1, 2, 3], counts);
        vec![
            ("routes of no number 0, one 1, some 2, 64 3", four(&self.sizes)),
            ("routes refused by 25 of 65 numbers 0, of more 1", by_number(&[0, 1], &self.too_many)),
            ("routes by the bytes left over behind their numbers", four(&self.over)),
            ("routes with room: exactly 0, bytes over 1, words 2, places 3", four(&self.room)),
            ("routes short of room: a byte 0, a word 1, a place 2, all 3", four(&self.short)),
            (
                "routes with a record: exactly 0, bytes over 1, words over 2",
                by_number(&[0, 1, 2], &self.records),
            ),
        ]
    }
}
