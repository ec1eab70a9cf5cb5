//! The office sheet: the engine beside Debian's `csv` crate.
//!
//! Both are called in turns on the same text and the same outputs, which lie
//! there ready. A call takes so long that what the measurement itself takes
//! does not count.

use std::hint::black_box;
use std::time::Instant;

use crate::turns::{in_passes, Rounds, Time};

mod contestants;
mod lists;
mod report;

use contestants::{Room, Way, CONTESTANTS, COUNT};
use lists::{Kind, List};

pub use report::section;

/// Timed sections of one contestant's turn; one more before them is not counted.
const SECTIONS: usize = 3;
/// A section takes at least so many bytes of text: short sheets are called more than once.
const SECTION_BYTES: usize = 64 * 1024;

/// What is measured: a sheet read or written.
pub struct Case {
    way: Way,
    kind: Kind,
    /// The most that the engine's time should be of csv's.
    target: Option<f64>,
}

/// All of them, in the order of the table.
const CASES: [Case; 7] = [
    Case::new(Way::Read, Kind::Plain, Some(1.0)),
    Case::new(Way::Read, Kind::Heavy, Some(1.0)),
    Case::new(Way::Read, Kind::Tenth, None),
    Case::new(Way::Read, Kind::Quoted, None),
    Case::new(Way::Read, Kind::Ring, None),
    Case::new(Way::Write, Kind::Plain, None),
    Case::new(Way::Write, Kind::Heavy, None),
];

impl Case {
    const fn new(way: Way, kind: Kind, target: Option<f64>) -> Case {
        Case { way, kind, target }
    }
}

/// One case's figures.
pub struct Figures {
    case: Case,
    rows: usize,
    bytes: usize,
    times: [Time; COUNT],
}

/// Measures both contestants on all cases.
pub fn measure(rounds: usize) -> Vec<Figures> {
    let mut list = CASES.map(Measurement::new);
    in_passes(&mut list, rounds, Measurement::pass);
    list.map(Measurement::figures).into()
}

/// A case, and what was found so far.
struct Measurement {
    case: Case,
    list: List,
    room: Room,
    rounds: Rounds<COUNT>,
}

impl Measurement {
    /// Nothing is measured that does not do the same.
    fn new(case: Case) -> Measurement {
        let list = List::new(case.kind);
        for contestant in &CONTESTANTS {
            let place = format!("{:?}, {}", case.way, case.kind.name());
            let same = contestant.agrees(case.way, &list);
            assert!(same, "{} differs: {place}", contestant.name);
        }
        Measurement {
            room: Room::new(&list),
            case,
            list,
            rounds: Rounds::new(),
        }
    }

    /// So many rounds more.
    fn pass(&mut self, rounds: usize) {
        for _ in 0..rounds {
            let (case, list, room) = (&self.case, &self.list, &mut self.room);
            let calls = SECTION_BYTES.div_ceil(list.text.len());
            self.rounds.round(|who| {
                let mut section = || {
                    let start = Instant::now();
                    for _ in 0..calls {
                        black_box(CONTESTANTS[who].call(case.way, black_box(list), room));
                    }
                    start.elapsed().as_nanos() as f64 / calls as f64
                };
                section();
                [(); SECTIONS].map(|()| section())
            });
        }
    }

    fn figures(self) -> Figures {
        Figures {
            case: self.case,
            rows: self.list.rows,
            bytes: self.list.text.len(),
            times: self.rounds.times(),
        }
    }
}
