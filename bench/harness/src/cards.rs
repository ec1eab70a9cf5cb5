//! The calls that are lent a card slice: the engine beside the models, and
//! beside itself without cards.
//!
//! Record and cards together fill half of the nearest cache, so there is one
//! copy of them. It is restored outside the timed section, and lies elsewhere
//! in each round.

use std::hint::black_box;
use std::time::Instant;

use crate::moving::{Moving, ALIGNED};
use crate::turns::{self, measured, Time};

mod books;
mod cases;
mod contestants;
mod growth;
mod report;
mod rings;

use cases::Case;
use contestants::{Contestant, Lent, CONTESTANTS, COUNT, IDLE, PLAIN, WITHOUT};

pub use report::section;

/// Timed sections of one contestant's turn; one more before them is not counted.
const SECTIONS: usize = 8;

/// One case's figures, by contestant.
pub struct Figures {
    case: Case,
    times: [Time; COUNT],
}

/// Measures all contestants on all cases.
pub fn measure(rounds: usize) -> Vec<Figures> {
    let cases = cases::all().into_iter().inspect(agree);
    let list = measured::<Room, _, COUNT, SECTIONS>(cases, rounds);
    let figures = |(case, times)| Figures { case, times };
    list.into_iter().map(figures).collect()
}

/// Memory that all contestants work on.
struct Room {
    memory: Moving,
    out: [u8; 20],
}

impl turns::Room<Case> for Room {
    fn new(case: &Case) -> Room {
        let size = case.record.len().next_multiple_of(ALIGNED) + case.book.len();
        Room {
            memory: Moving::new(size),
            out: [0; 20],
        }
    }

    fn move_on(&mut self, round: usize) {
        self.memory.move_on(round);
    }

    /// One call on the restored copy.
    fn section(&mut self, who: Option<usize>, case: &Case) -> f64 {
        let contestant = who.map_or(&IDLE, |who| &CONTESTANTS[who]);
        let behind = case.record.len().next_multiple_of(ALIGNED);
        let (record, book) = self.memory.bytes().split_at_mut(behind);
        let mut lent = Lent {
            record: &mut record[..case.record.len()],
            book: &mut book[..case.book.len()],
            out: &mut self.out,
        };
        lent.record.copy_from_slice(&case.record);
        lent.book.copy_from_slice(&case.book);
        let call = black_box(case.call);
        let start = Instant::now();
        black_box(contestant.call(call, &mut lent));
        start.elapsed().as_nanos() as f64
    }
}

/// What a contestant makes of the case: return, output, record and cards.
fn outcome(contestant: &Contestant, case: &Case) -> (u32, [u8; 20], Vec<u8>, Vec<u8>) {
    let (mut record, mut book) = (case.record.clone(), case.book.clone());
    let mut out = [0xBB; 20];
    let mut lent = Lent {
        record: &mut record,
        book: &mut book,
        out: &mut out,
    };
    let number = contestant.call(case.call, &mut lent);
    (number, out, record, book)
}

/// Nothing is measured that does not do the same as the plain model. Without
/// cards a step answers the same and leaves the same record.
fn agree(case: &Case) {
    let place = case.place();
    let expected = outcome(&CONTESTANTS[PLAIN], case);
    assert_eq!(expected.0, 0, "{place}");
    assert_eq!(expected.3 != case.book, case.changes_cards, "{place}");
    for contestant in &CONTESTANTS[..WITHOUT] {
        let same = outcome(contestant, case) == expected;
        assert!(same, "{} differs: {place}", contestant.name);
    }
    let bare = outcome(&CONTESTANTS[WITHOUT], case);
    let same = (bare.0, &bare.2, &bare.3) == (0, &expected.2, &case.book);
    assert!(same, "{place}, without cards");
    assert!(case.is_offer() || bare.1 == expected.1, "{place}");
}
