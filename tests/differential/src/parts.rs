//! The parts of the test. Each is made of batches; a batch is fixed by the seed, the part and its
//! number, and can be run alone again.

use std::panic::{catch_unwind, AssertUnwindSafe};

use ring_model::generator::Generator;

use crate::calls::Calls;
use crate::reached::Reached;
use crate::{cards, damaged, founding, lengths, program, rolls, routes, runs, sheets, unreachable};

/// A batch of calls: everything random in it comes from the generator.
pub type Batch = fn(&mut Generator, Calls, u64, &mut Reached) -> Result<(), String>;

/// A part of the test.
pub struct Part {
    /// Its name, as it is printed and as it is given to run one batch again.
    pub name: &'static str,
    /// Its share of the time, of 100.
    pub share: u32,
    /// So many batches are made in a long run, also where the time is up before.
    pub least: u64,
    /// One batch.
    pub batch: Batch,
}

/// All parts.
pub const PARTS: [Part; 18] = [
    Part { name: "runs", share: 19, least: 0, batch: runs::batch },
    Part { name: "witnessed", share: 6, least: 0, batch: runs::witnessed_batch },
    Part { name: "unreachable", share: 9, least: 0, batch: unreachable::batch },
    Part { name: "damaged", share: 8, least: 0, batch: damaged::batch },
    Part { name: "lengths", share: 3, least: 0, batch: lengths::batch },
    Part { name: "roll_edges", share: 1, least: 10, batch: rolls::edges::batch },
    Part { name: "founding", share: 3, least: 0, batch: founding::batch },
    Part { name: "cards", share: 6, least: 100, batch: cards::runs::batch },
    Part { name: "any_cards", share: 3, least: 300, batch: cards::any::batch },
    Part { name: "damaged_cards", share: 4, least: 80, batch: cards::damaged::batch },
    Part { name: "card_edges", share: 1, least: 20, batch: cards::edges::batch },
    Part { name: "routes", share: 4, least: 60, batch: routes::runs::batch },
    Part { name: "any_routes", share: 2, least: 60, batch: routes::any::batch },
    Part { name: "damaged_routes", share: 1, least: 20, batch: routes::damaged::batch },
    Part { name: "route_edges", share: 1, least: 10, batch: routes::edges::batch },
    Part { name: "sheets", share: 13, least: 5_000, batch: sheets::batch },
    Part { name: "ringrun", share: 10, least: 0, batch: program::batch },
    Part { name: "inspect", share: 6, least: 0, batch: program::inspect_batch },
];

impl Part {
    /// The generator of one batch.
    fn generator(&self, seed: u64, number: u64) -> Generator {
        let name = self
            .name
            .bytes()
            .fold(seed, |sum, byte| Generator::new(sum ^ u64::from(byte)).next_u64());
        Generator::new(name ^ Generator::new(number).next_u64())
    }

    /// Runs one batch; a difference is told with what it takes to see it again.
    pub fn run(
        &self,
        seed: u64,
        number: u64,
        calls: Calls,
        reached: &mut Reached,
    ) -> Result<(), String> {
        let mut generator = self.generator(seed, number);
        // An engine that answers nonsense may lead the model astray: that is a difference, too.
        let batch = AssertUnwindSafe(|| (self.batch)(&mut generator, calls, number, reached));
        let result = catch_unwind(batch).unwrap_or_else(|_| Err("a panic".to_string()));
        let name = self.name;
        let again = format!("tests/differential/run {seed} 0 {name} {number}");
        result.map_err(|what| {
            format!("DIFFERENCE in {name}, seed {seed}, batch {number}; again: {again}\n  {what}")
        })
    }
}
