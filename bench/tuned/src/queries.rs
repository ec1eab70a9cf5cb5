//! The owner query and the roll call (document 01, 'Reading the ring').

use crate::check::Check;
use crate::clockwise::in_interval;
use crate::record::{checked, identifier, succ, Record, Row, INSIDE, MOST_HUBS, N, NONE, WANTING};
use crate::refusal;
use crate::word::Word;

/// The lowest hub that holds the number.
pub fn owner<C: Check, W: Word>(words: &[W], number: u32) -> Result<u32, u32> {
    let record = checked::<C, W>(words)?;
    (0..record[N].get())
        .find(|&hub| {
            let row = Row::read(record, hub);
            matches!(row.state, INSIDE | WANTING)
                && in_interval(number, identifier(record, row.pred), row.identifier)
        })
        .ok_or(refusal::NO_HOLDER)
}

/// The hubs from one on along succ; how many they are. They may be carried
/// otherwise than the record is.
pub fn roll_call<C: Check, W: Word, V: Word>(
    words: &[W],
    hub: u32,
    roll: &mut [V],
) -> Result<usize, u32> {
    let record = checked::<C, W>(words)?;
    if hub >= record[N].get() {
        return Err(refusal::NO_HUB);
    }
    if !Row::read(record, hub).in_ring() {
        return Err(refusal::NOT_IN_RING);
    }
    let mut hubs = [V::of(0); MOST_HUBS];
    let count = way_round(record, hub, &mut hubs).ok_or(refusal::NO_WAY_ROUND)?;
    let places = roll.get_mut(..count).ok_or(refusal::OUTPUT_SHORT)?;
    places.copy_from_slice(&hubs[..count]);
    Ok(count)
}

/// The way along succ, where it comes back after at most n hubs.
fn way_round<W: Word, V: Word>(
    record: &Record<W>,
    hub: u32,
    hubs: &mut [V; MOST_HUBS],
) -> Option<usize> {
    let n = record[N].get() as usize;
    let mut at = hub;
    for (place, reached) in hubs[..n].iter_mut().enumerate() {
        *reached = V::of(at);
        at = succ(record, at);
        if at == hub {
            return Some(place + 1);
        }
        if at == NONE {
            return None;
        }
    }
    None
}
