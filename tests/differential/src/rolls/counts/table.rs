//! The table of what the roll calls have reached.

use super::RollCounts;
use crate::reached::{by_number, Cells};

/// Which numbers a roll call can give; 0 stands for no refusal. From fresh on a roll does not come
/// back where a join or a leave is on its way.
const OF_ROLL: [usize; 5] = [0, 4, 5, 16, 17];
const OF_DAMAGED: [usize; 6] = [0, 2, 4, 5, 16, 17];
const OF_LENGTHS: [usize; 7] = [0, 1, 2, 4, 5, 16, 17];
/// What comes after the first 17, and what comes before the last.
const BETWEEN: [usize; 5] = [1, 2, 4, 5, 16];
/// What comes before 4, and 4.
const UP_TO_4: [usize; 3] = [1, 2, 4];

impl RollCounts {
    /// The table: names and counts.
    pub fn rows(&self) -> Vec<(&'static str, Cells)> {
        let mut rows = self.rows_of_numbers();
        rows.extend(self.rows_of_rolls());
        rows.extend(self.rows_of_lengths());
        rows
    }

    fn rows_of_numbers(&self) -> Vec<(&'static str, Cells)> {
        let [fresh, any, damaged, lengths] = &self.numbers;
        vec![
            ("rolls from fresh on, 0 or refused by", by_number(&OF_ROLL, fresh)),
            ("rolls on any record, 0 or refused by", by_number(&OF_ROLL, any)),
            ("rolls on damaged records, 0 or refused by", by_number(&OF_DAMAGED, damaged)),
            ("rolls of any length, 0 or refused by", by_number(&OF_LENGTHS, lengths)),
            (
                "rolls refused by 17 for the length, and else 0 or refused by",
                by_number(&OF_LENGTHS, &self.first),
            ),
            ("rolls without room for a hub, refused by", by_number(&BETWEEN, &self.no_room)),
            ("rolls from a hub that is none of 64, refused by", by_number(&UP_TO_4, &self.no_hub)),
        ]
    }

    fn rows_of_rolls(&self) -> Vec<(&'static str, Cells)> {
        let four = |counts: &[u64; 4]| by_number(&[0, 1, 2, 3], counts);
        vec![
            ("rolls at rest: of one 0, two 1, more 2, 64 3", four(&self.rolls_at_rest)),
            ("owners at rest: of one 0, two 1, more 2, 64 3", four(&self.owners_at_rest)),
            (
                "rings at rest again: with hubs entered 0, gone 1, both 2",
                by_number(&[0, 1, 2], &self.rested),
            ),
            ("rolls: of one 0, two 1, more 2, 64 3", four(&self.sizes)),
            ("rolls of fewer hubs than the ring has", vec![(None, self.fewer)]),
            (
                "rolls from a hub inside 0, wanting to leave 1, leaving 2",
                by_number(&[0, 1, 2], &self.states),
            ),
        ]
    }

    fn rows_of_lengths(&self) -> Vec<(&'static str, Cells)> {
        let three = |counts: &[u64; 3]| by_number(&[0, 1, 2], counts);
        vec![
            ("rolls with room: exactly 0, bytes over 1, words 2", three(&self.over)),
            ("rolls with a length: exactly 0, bytes over 1, words 2", three(&self.behind_length)),
            ("rolls with a record: exactly 0, bytes over 1, words over 2", three(&self.records)),
            (
                "rolls short of room by 1 to 4 bytes 0 to 3, by more 4, by all 5",
                by_number(&[0, 1, 2, 3, 4, 5], &self.short),
            ),
            (
                "rolls refused by 17 for a length of so many bytes",
                by_number(&[0, 1, 2, 3], &self.length),
            ),
        ]
    }
}
