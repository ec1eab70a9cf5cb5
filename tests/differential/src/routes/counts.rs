//! What the routes have reached.

mod table;

use ring_model::answer::FOUND;
use ring_model::bytes::{NO_REFUSAL, OUTCOME_BYTES};
use ring_model::record::row_start;
use ring_model::refusal::{
    MESSAGES_FULL, NOT_WELL_FORMED, PLACES_SHORT, RECORD_SHORT, ROUTE_LONG, TICKETS_USED_UP,
};
use ring_model::routes::{Outcome, MAX_NUMBERS};

use super::route::Route;
use crate::calls::{word_at, RECORD_BYTES};
use crate::reached::add_all;

/// Where a route was made: on a ring from fresh on, on one with cards, on any record, on a damaged
/// one, or with memory of any length.
#[derive(Clone, Copy)]
pub enum Source {
    Fresh,
    Cards,
    Any,
    Damaged,
    Lengths,
}

const SOURCES: usize = 5;

/// Counts of routes.
#[derive(Clone, Default)]
pub struct RouteCounts {
    /// Routes compared.
    pub calls: u64,
    /// Questions of theirs that were asked one by one on copies.
    pub asked: u64,
    /// After a route, with cards: entered and gone, and offers that were accepted.
    pub then: [u64; 3],
    /// By source and number returned.
    numbers: [[u64; 27]; SOURCES],
    /// Questions by source and refusal number, 0 for none.
    questions: [[u64; 13]; SOURCES],
    /// A question that fits and then one that does not, by source; and then one that is found.
    filled: [u64; SOURCES],
    found_behind: [u64; SOURCES],
    /// Tickets that run out on the way, and with the last number.
    tickets: [u64; 2],
    /// Quiet and found.
    kinds: [u64; 2],
    /// Accepted: no number, one, some, 64; with a number twice. Refused: 65, more.
    sizes: [u64; 4],
    twice: u64,
    too_many: [u64; 2],
    /// By the state of the hub; a hub that is none.
    states: [u64; 6],
    /// Refused by 1, by 2 and by 25 where a later question would say no as well.
    both: [u64; 5],
    /// Accepted, by the bytes left over behind the numbers, and by the room that is over.
    over: [u64; 4],
    room: [u64; 4],
    /// Refused by 26: a byte short, a word, a place, without any room.
    short: [u64; 4],
    /// Accepted, by the bytes behind the record: none, up to three, more.
    records: [u64; 3],
}

impl RouteCounts {
    /// Counts a route with the number returned, and the record that it leaves.
    pub fn called(&mut self, source: Source, code: u32, route: &Route, record: &[u8]) {
        self.calls += 1;
        if let Some(count) = self.numbers[source as usize].get_mut(code as usize) {
            *count += 1;
        }
        let (count, enough) = (route.numbers().len(), OUTCOME_BYTES * route.numbers().len());
        if code == NO_REFUSAL {
            self.accepted(source, route, record);
            return;
        }
        self.refused_twice(code, count > MAX_NUMBERS, route.room() < enough);
        match code {
            ROUTE_LONG => self.too_many[usize::from(count > MAX_NUMBERS + 1)] += 1,
            PLACES_SHORT => self.short(enough, route.room()),
            _ => {}
        }
    }

    /// Counts which two questions said no.
    fn refused_twice(&mut self, code: u32, long: bool, short: bool) {
        let (also_25, also_26) = match code {
            RECORD_SHORT => (0, 1),
            NOT_WELL_FORMED => (2, 3),
            ROUTE_LONG => (4, 4),
            _ => return,
        };
        self.both[also_25] += u64::from(long && code != ROUTE_LONG);
        self.both[also_26] += u64::from(short);
    }

    fn short(&mut self, enough: usize, room: usize) {
        for (count, by) in self.short.iter_mut().zip([1, 4, OUTCOME_BYTES, enough]) {
            *count += u64::from(enough - room == by);
        }
    }

    fn accepted(&mut self, source: Source, route: &Route, record: &[u8]) {
        let asked = route.asked();
        self.sizes[match asked.len() {
            0 | 1 => asked.len(),
            MAX_NUMBERS => 3,
            _ => 2,
        }] += 1;
        self.over[route.over()] += 1;
        self.room[match route.room() - OUTCOME_BYTES * asked.len() {
            0 => 0,
            1..=3 => 1,
            4..OUTCOME_BYTES => 2,
            _ => 3,
        }] += 1;
        self.records[match record.len() - RECORD_BYTES {
            0 => 0,
            1..=3 => 1,
            _ => 2,
        }] += 1;
        let mut numbers: Vec<u32> = asked.iter().map(|(number, _)| *number).collect();
        numbers.sort_unstable();
        self.twice += u64::from(numbers.windows(2).any(|two| two[0] == two[1]));
        let state = match route.hub < word_at(record, 1) {
            true => word_at(record, row_start(route.hub as usize) + 1) as usize,
            false => 5,
        };
        self.states[state] += 1;
        self.outcomes(source, &asked);
        let gets_one = asked.last().is_some_and(|(_, outcome)| outcome.is_ok());
        self.tickets[1] += u64::from(gets_one && word_at(record, 3) == u32::MAX);
    }

    fn outcomes(&mut self, source: Source, asked: &[(u32, Outcome)]) {
        for (_, outcome) in asked {
            self.questions[source as usize][outcome.err().unwrap_or(NO_REFUSAL) as usize] += 1;
            if let Ok(answer) = outcome {
                self.kinds[usize::from(answer.kind == FOUND)] += 1;
            }
        }
        let at = |number: u32| asked.iter().position(|(_, outcome)| *outcome == Err(number));
        if let Some(full) = at(MESSAGES_FULL) {
            let fits = |outcome: &Outcome| outcome.is_ok_and(|answer| answer.kind != FOUND);
            let found = |outcome: &Outcome| outcome.is_ok_and(|answer| answer.kind == FOUND);
            let [mut before, mut behind] = [&asked[..full], &asked[full..]].map(|part| part.iter());
            self.filled[source as usize] += u64::from(before.any(|(_, one)| fits(one)));
            self.found_behind[source as usize] += u64::from(behind.any(|(_, one)| found(one)));
        }
        self.tickets[0] += u64::from(at(TICKETS_USED_UP).is_some_and(|place| place > 0));
    }

    /// Adds another thread's counts.
    pub fn add(&mut self, other: &RouteCounts) {
        self.calls += other.calls;
        self.asked += other.asked;
        self.twice += other.twice;
        for source in 0..SOURCES {
            add_all(&mut self.numbers[source], &other.numbers[source]);
            add_all(&mut self.questions[source], &other.questions[source]);
        }
        add_all(&mut self.then, &other.then);
        add_all(&mut self.filled, &other.filled);
        add_all(&mut self.found_behind, &other.found_behind);
        add_all(&mut self.tickets, &other.tickets);
        add_all(&mut self.kinds, &other.kinds);
        add_all(&mut self.sizes, &other.sizes);
        add_all(&mut self.too_many, &other.too_many);
        add_all(&mut self.states, &other.states);
        add_all(&mut self.both, &other.both);
        add_all(&mut self.over, &other.over);
        add_all(&mut self.room, &other.room);
        add_all(&mut self.short, &other.short);
        add_all(&mut self.records, &other.records);
    }
}
