//! A route: 64 questions in one call, of the engine beside the models, and
//! beside the engine's own steps one by one.
//!
//! Such a call is long enough to be timed alone, so there is one copy of the
//! record. It is restored outside the timed section, and lies elsewhere in each
//! round.

use std::hint::black_box;
use std::time::Instant;

use crate::moving::{Moving, ALIGNED};
use crate::turns::{self, measured, Time};

mod cases;
mod contestants;
mod report;

use cases::{Case, QUESTIONS};
use contestants::{Contestant, Lent, CONTESTANTS, COUNT, IDLE, PLAIN};

pub use report::section;

/// Timed sections of one contestant's turn; one more before them is not counted.
const SECTIONS: usize = 20;
/// Bytes of an outcome.
const PLACE: usize = 24;

/// One case's figures, by contestant.
pub struct Figures {
    case: Case,
    times: [Time; COUNT],
}

/// Measures all contestants on all cases.
pub fn measure(rounds: usize) -> Vec<Figures> {
    let cases = cases::all().into_iter().inspect(agree);
    let list = measured::<Room, _, COUNT, SECTIONS>(cases, rounds);
    let figures = |(case, times)| Figures { case, times };
    list.into_iter().map(figures).collect()
}

/// Memory that all contestants work on.
struct Room {
    memory: Moving,
    /// Calls that were made.
    made: usize,
}

impl turns::Room<Case> for Room {
    fn new(case: &Case) -> Room {
        let size = case.record.len().next_multiple_of(ALIGNED) + PLACE * QUESTIONS;
        Room {
            memory: Moving::new(size),
            made: 0,
        }
    }

    fn move_on(&mut self, round: usize) {
        self.memory.move_on(round);
    }

    /// One route on the restored copy.
    fn section(&mut self, who: Option<usize>, case: &Case) -> f64 {
        let contestant = who.map_or(&IDLE, |who| &CONTESTANTS[who]);
        let behind = case.record.len().next_multiple_of(ALIGNED);
        let (record, outcomes) = self.memory.bytes().split_at_mut(behind);
        let mut lent = Lent {
            record: &mut record[..case.record.len()],
            numbers: &case.lists[self.made % case.lists.len()],
            outcomes: &mut outcomes[..PLACE * QUESTIONS],
        };
        self.made += 1;
        lent.record.copy_from_slice(&case.record);
        let hub = black_box(case.hub);
        let start = Instant::now();
        black_box(contestant.call(hub, black_box(&mut lent)));
        start.elapsed().as_nanos() as f64
    }
}

/// What a contestant makes of copies: return, record and outcomes.
fn outcome(
    contestant: &Contestant,
    (record, hub, numbers): (&[u8], u32, &[u8]),
    places_len: usize,
) -> (u32, Vec<u8>, Vec<u8>) {
    let (mut record, mut outcomes) = (record.to_vec(), vec![0xBB; places_len]);
    let mut lent = Lent {
        record: &mut record,
        numbers,
        outcomes: &mut outcomes,
    };
    let number = contestant.call(hub, &mut lent);
    (number, record, outcomes)
}

/// Nothing is measured that does not do the same as the plain model; the steps
/// one by one do too.
fn agree(case: &Case) {
    let place = case.place();
    for numbers in &case.lists {
        let route = (&case.record[..], case.hub, &numbers[..]);
        let expected = outcome(&CONTESTANTS[PLAIN], route, PLACE * QUESTIONS);
        let found = |place: &[u8]| u32::from(place[..5] == [0, 0, 0, 0, 1]);
        let found: u32 = expected.2.chunks_exact(PLACE).map(found).sum();
        assert_eq!(expected.0, 0, "{place}");
        assert!(case.kind.answers(found as usize), "{place}: {found} found");
        for contestant in &CONTESTANTS {
            let same = outcome(contestant, route, PLACE * QUESTIONS) == expected;
            assert!(same, "{} differs: {place}", contestant.name);
        }
    }
}

#[cfg(test)]
mod tests;
