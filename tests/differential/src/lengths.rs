//! Records and outputs of every length that matters.

use ring_model::generator::Generator;

use crate::calls::{Calls, RECORD_BYTES};
use crate::damaged::{bytes_of, reachable};
use crate::driver::on_any_state;
use crate::identifiers::some_key;
use crate::lent::Lent;
use crate::pair::Pair;
use crate::reached::Reached;

/// The longest output that is tried.
const MOST_OUT: usize = 24;

/// Lengths of records in bytes: none to eight words and a bit, around the record's, and longer.
pub fn record_lengths() -> impl Iterator<Item = usize> {
    let near = RECORD_BYTES - 9..=RECORD_BYTES + 9;
    (0..=35).chain(near).chain([RECORD_BYTES + 1000, 2 * RECORD_BYTES])
}

/// Mostly enough for a record, now and then short of it.
pub fn around_enough(generator: &mut Generator) -> usize {
    match generator.below(8) {
        0 => RECORD_BYTES - 1 - generator.below(8) as usize,
        _ => RECORD_BYTES + generator.below(6) as usize,
    }
}

/// A sound record, as far as there is room, or a damaged one.
pub fn some_record(generator: &mut Generator, sound: &[u8], length: usize) -> Lent {
    let mut record = Lent::new(generator, length);
    record.put(sound);
    if generator.chance(12) {
        record.put(&generator.next_u32().to_le_bytes());
    }
    record
}

/// Steps and owner queries with each length of record and output.
pub fn batch(
    generator: &mut Generator,
    calls: Calls,
    _number: u64,
    reached: &mut Reached,
) -> Result<(), String> {
    let state = reachable(generator);
    let sound = bytes_of(&state);
    for length in record_lengths() {
        for out in 0..=MOST_OUT {
            let mut pair = Pair::new(generator, calls, length, out);
            pair.record.put(&sound);
            let tell = |what: String| {
                format!("record of {length} bytes, output of {out}: {what}\n  in {state:?}")
            };
            pair.owner(some_key(generator, &state), reached).map_err(tell)?;
            pair.step(on_any_state(generator, &state), reached).map_err(tell)?;
        }
    }
    Ok(())
}
