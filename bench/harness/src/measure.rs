//! How long a call takes.
//!
//! A call is timed on copies of its record, which are restored outside the
//! timed section. There are only three, so that they stay in the nearest
//! cache, as the record of a busy server does. The contestants take turns in
//! short rounds on the same memory: noise of the machine meets all alike. In
//! each round that memory lies elsewhere, since some places are slow for those
//! who copy the record. What a call that does nothing takes, measured in the
//! same way, is subtracted.

use std::array;
use std::hint::black_box;
use std::time::Instant;

use crate::cases::Case;
use crate::contestants::{Call, Contestant, CONTESTANTS, COUNT, IDLE, OUT, PLAIN};
use crate::moving::Moving;
use crate::turns::{self, measured, Time};

/// Copies of a record, each called once in a timed section.
const COPIES: usize = 3;
/// Timed sections of one contestant's turn; one more before them is not counted.
const SECTIONS: usize = 20;

/// One case's figures, by contestant.
pub struct Figures {
    pub case: Case,
    pub times: [Time; COUNT],
}

/// Memory that all contestants work on.
struct Room {
    memory: Moving,
    out: [u8; OUT],
    /// Calls that were made.
    made: usize,
}

impl turns::Room<Case> for Room {
    fn new(case: &Case) -> Room {
        Room {
            memory: Moving::new(COPIES * case.record.len()),
            out: [0; OUT],
            made: 0,
        }
    }

    fn move_on(&mut self, round: usize) {
        self.memory.move_on(round);
    }

    /// One call on each of the restored copies.
    fn section(&mut self, who: Option<usize>, case: &Case) -> f64 {
        let contestant = who.map_or(&IDLE, |who| &CONTESTANTS[who]);
        let size = case.record.len();
        let copies = &mut self.memory.bytes()[..COPIES * size];
        for copy in copies.chunks_exact_mut(size) {
            copy.copy_from_slice(&case.record);
        }
        let calls = array::from_fn(|next| case.calls[(self.made + next) % case.calls.len()]);
        self.made += COPIES;
        let calls: [Call; COPIES] = black_box(calls);
        let start = Instant::now();
        for (record, call) in copies.chunks_exact_mut(size).zip(calls) {
            black_box(contestant.call(call, record, &mut self.out));
        }
        start.elapsed().as_nanos() as f64 / COPIES as f64
    }
}

/// Measures all contestants on these cases.
pub fn measure(cases: impl Iterator<Item = Case>, rounds: usize) -> Vec<Figures> {
    let list = measured::<Room, _, COUNT, SECTIONS>(cases.inspect(agree), rounds);
    let figures = |(case, times)| Figures { case, times };
    list.into_iter().map(figures).collect()
}

/// Nothing is measured that does not do the same: return, output and record
/// are those of the plain model.
fn agree(case: &Case) {
    let place = format!("{} at n = {}, m = {}", case.kind.name(), case.n, case.m);
    for &call in &case.calls {
        let outcome = |contestant: &Contestant| {
            let (mut record, mut out) = (case.record.clone(), [0xBB; OUT]);
            let number = contestant.call(call, &mut record, &mut out);
            (number, out, record)
        };
        let expected = outcome(&CONTESTANTS[PLAIN]);
        assert_eq!(expected.0, case.returns, "{place}");
        for contestant in &CONTESTANTS {
            let same = outcome(contestant) == expected;
            assert!(same, "{} differs: {place}", contestant.name);
        }
    }
}
