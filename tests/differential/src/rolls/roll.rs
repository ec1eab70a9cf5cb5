//! One roll call, engine and model side by side: the two outputs that are lent to it.

use ring_model::bytes::{ring_roll, LENGTH_BYTES};
use ring_model::generator::Generator;
use ring_model::queries::roll_state;
use ring_model::record::{State, MAX_NODES};

use crate::calls::{word_at, words_of, Calls};
use crate::lent::{compare, Lent};
use crate::routes::lists::some_hub;

/// A hub, and memory for the roll from it and for its length.
pub struct Roll {
    /// The hub from which the roll is called.
    pub hub: u32,
    roll: Lent,
    length: Lent,
}

impl Roll {
    /// So many bytes for the roll, and so many for its length.
    pub fn new(generator: &mut Generator, hub: u32, [room, length]: [usize; 2]) -> Roll {
        Roll { hub, roll: Lent::new(generator, room), length: Lent::new(generator, length) }
    }

    /// A roll on a ring in this state. Mostly it is not refused.
    pub fn some(generator: &mut Generator, state: &State) -> Roll {
        let hub = some_hub(generator, state);
        let enough = enough(state, hub);
        let room = match generator.below(16) {
            0 => generator.below(enough as u32) as usize,
            1 => enough - 1 - generator.below(4) as usize,
            2..=6 => enough,
            7..=10 => enough + generator.below(4) as usize,
            _ => enough + generator.below(4 * MAX_NODES as u32) as usize,
        };
        let length = match generator.below(16) {
            0 => generator.below(LENGTH_BYTES as u32) as usize,
            1..=11 => LENGTH_BYTES,
            _ => LENGTH_BYTES + generator.below(6) as usize,
        };
        Roll::new(generator, hub, [room, length])
    }

    /// Bytes for the roll.
    pub fn room(&self) -> usize {
        self.roll.look().len()
    }

    /// Bytes for its length.
    pub fn length(&self) -> usize {
        self.length.look().len()
    }

    /// The call of both on a record, compared; the number returned.
    pub fn call(&mut self, calls: Calls, record: &mut Lent) -> Result<u32, String> {
        let (roll, length) = (self.roll.engine(), self.length.engine());
        let code = (calls.roll)(record.engine(), self.hub, roll, length);
        let (roll, length) = (self.roll.expected(), self.length.expected());
        let should = ring_roll(record.look(), self.hub, roll, length);
        let lent = [("record", &*record), ("roll", &self.roll), ("length", &self.length)];
        compare(code, should, &lent).map_err(|what| self.tell(&what))?;
        Ok(code)
    }

    /// The hubs, as engine and model have them, where the call was not refused.
    pub fn hubs(&self) -> Vec<u32> {
        let count = word_at(self.length.look(), 0) as usize;
        words_of(self.roll.look()).into_iter().take(count).collect()
    }

    fn tell(&self, what: &str) -> String {
        let (hub, room, length) = (self.hub, self.room(), self.length());
        format!("roll from {hub}, {room} bytes for it and {length} for its length: {what}")
    }
}

/// Bytes that the roll from this hub needs; where there is none, as many as one of all hubs does.
pub fn enough(state: &State, hub: u32) -> usize {
    4 * roll_state(state, hub).map_or(state.rows.len(), |roll| roll.len())
}
