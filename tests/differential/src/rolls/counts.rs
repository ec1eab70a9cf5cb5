//! What the roll calls have reached.

mod table;

use ring_model::bytes::{ring_roll, LENGTH_BYTES, NO_REFUSAL};
use ring_model::record::{row_start, INSIDE, MAX_NODES};
use ring_model::refusal::OUTPUT_SHORT;

use super::roll::Roll;
use crate::calls::{word_at, RECORD_BYTES};
use crate::reached::add_all;

/// Where a roll was called: on a ring from fresh on, on any record, on a damaged one, or with memory
/// of any length.
#[derive(Clone, Copy)]
pub enum Source {
    Fresh,
    Any,
    Damaged,
    Lengths,
}

const SOURCES: usize = 4;

/// Counts by refusal number.
type Numbers = [u64; 18];

/// Counts of roll calls.
#[derive(Clone, Default)]
pub struct RollCounts {
    /// Rolls from members, and owners, where no message waits: of one member, two, more, 64.
    rolls_at_rest: [u64; 4],
    owners_at_rest: [u64; 4],
    /// Rings that came to rest again: with hubs that entered meanwhile, are gone, or both.
    rested: [u64; 3],
    /// By source and number returned.
    numbers: [Numbers; SOURCES],
    /// Refused by 17 for the length, by the number that is returned if it is long enough.
    first: Numbers,
    /// Refused where the output has no room for one hub, by the number.
    no_room: Numbers,
    /// Refused where the hub is none of 64, by the number.
    no_hub: Numbers,
    /// Accepted: of one hub, two, more, 64; of fewer hubs than the ring has; by the hub's state.
    sizes: [u64; 4],
    fewer: u64,
    states: [u64; 3],
    /// Accepted, by what is over behind the roll and its length: none, bytes, words.
    over: [u64; 3],
    behind_length: [u64; 3],
    /// Refused by the last 17: short by so many bytes up to a word, or without any.
    short: [u64; 6],
    /// Refused by 17 for a length of so many bytes.
    length: [u64; LENGTH_BYTES],
    /// Accepted, by the bytes behind the record: none, up to three, more.
    records: [u64; 3],
}

impl RollCounts {
    /// Counts a roll call with the number returned, and the record that it read.
    pub fn called(&mut self, source: Source, code: u32, roll: &Roll, record: &[u8]) {
        count(&mut self.numbers[source as usize], code);
        if code == NO_REFUSAL {
            self.accepted(roll, record);
            return;
        }
        if roll.length() < LENGTH_BYTES {
            self.length[roll.length()] += 1;
            let mut room = vec![0; roll.room()];
            count(&mut self.first, ring_roll(record, roll.hub, &mut room, &mut [0; LENGTH_BYTES]));
            return;
        }
        if roll.room() < 4 {
            count(&mut self.no_room, code);
        }
        if roll.hub as usize >= MAX_NODES {
            count(&mut self.no_hub, code);
        }
        if code == OUTPUT_SHORT {
            self.last_17(roll, record);
        }
    }

    /// How much the room is short by: the model says how many hubs there are.
    fn last_17(&mut self, roll: &Roll, record: &[u8]) {
        let (mut all, mut length) = ([0; 4 * MAX_NODES], [0; LENGTH_BYTES]);
        ring_roll(record, roll.hub, &mut all, &mut length);
        match 4 * word_at(&length, 0) as usize - roll.room() {
            by @ 1..=4 => self.short[by - 1] += 1,
            _ => self.short[4] += 1,
        }
        self.short[5] += u64::from(roll.room() == 0);
    }

    fn accepted(&mut self, roll: &Roll, record: &[u8]) {
        let hubs = roll.hubs().len();
        self.sizes[size(hubs)] += 1;
        self.fewer += u64::from((hubs as u32) < word_at(record, 1));
        let state = word_at(record, row_start(roll.hub as usize) + 1);
        self.states[(state - INSIDE) as usize] += 1;
        self.over[over(roll.room() - 4 * hubs)] += 1;
        self.behind_length[over(roll.length() - LENGTH_BYTES)] += 1;
        self.records[over(record.len() - RECORD_BYTES)] += 1;
    }

    /// Counts a roll that was held to a ledger of so many members, where no message waits.
    pub fn rolled_at_rest(&mut self, members: u64) {
        self.rolls_at_rest[size(members as usize)] += 1;
    }

    /// Counts an owner, likewise.
    pub fn owned_at_rest(&mut self, members: u64) {
        self.owners_at_rest[size(members as usize)] += 1;
    }

    /// Counts a ring that has come to rest, by its ledger at the rest before and now.
    pub fn rested(&mut self, before: u64, now: u64) {
        match (now & !before != 0, before & !now != 0) {
            (true, false) => self.rested[0] += 1,
            (false, true) => self.rested[1] += 1,
            (true, true) => self.rested[2] += 1,
            (false, false) => {}
        }
    }

    /// Adds another thread's counts.
    pub fn add(&mut self, other: &RollCounts) {
        add_all(&mut self.rolls_at_rest, &other.rolls_at_rest);
        add_all(&mut self.owners_at_rest, &other.owners_at_rest);
        add_all(&mut self.rested, &other.rested);
        for (numbers, others) in self.numbers.iter_mut().zip(&other.numbers) {
            add_all(numbers, others);
        }
        add_all(&mut self.first, &other.first);
        add_all(&mut self.no_room, &other.no_room);
        add_all(&mut self.no_hub, &other.no_hub);
        add_all(&mut self.sizes, &other.sizes);
        self.fewer += other.fewer;
        add_all(&mut self.states, &other.states);
        add_all(&mut self.over, &other.over);
        add_all(&mut self.behind_length, &other.behind_length);
        add_all(&mut self.short, &other.short);
        add_all(&mut self.length, &other.length);
        add_all(&mut self.records, &other.records);
    }
}

fn count(numbers: &mut Numbers, code: u32) {
    if let Some(count) = numbers.get_mut(code as usize) {
        *count += 1;
    }
}

/// The place of so many hubs: one, two, more, 64.
fn size(hubs: usize) -> usize {
    match hubs {
        0 | 1 => 0,
        2 => 1,
        MAX_NODES => 3,
        _ => 2,
    }
}

/// The place of so many bytes: none, up to three, more.
fn over(bytes: usize) -> usize {
    match bytes {
        0 => 0,
        1..=3 => 1,
        _ => 2,
    }
}
