//! A route for C. Numbers and outcomes are words of four bytes, read and
//! written where they are; what is left over of their bytes is not lent.

use super::{carried, carry_back, code, RECORD_BYTES};
use crate::check::Check;
use crate::record::RECORD_WORDS;
use crate::refusal;

/// A route; the record is carried over once.
pub fn route<C: Check>(
    bytes: &mut [u8],
    hub: u32,
    numbers: &[[u8; 4]],
    outcomes: &mut [[u8; 4]],
) -> u32 {
    let Some(record) = bytes.get_mut(..RECORD_BYTES) else {
        return refusal::RECORD_SHORT;
    };
    let mut words = carried::<RECORD_WORDS>(record);
    let outcome = crate::route::<C, _, _>(&mut words, hub, numbers, outcomes);
    code(outcome.map(|()| carry_back(record, &words)))
}

/// The call on the bytes where they are.
pub mod in_place {
    use super::*;

    /// A route.
    pub fn route<C: Check>(
        words: &mut [[u8; 4]],
        hub: u32,
        numbers: &[[u8; 4]],
        outcomes: &mut [[u8; 4]],
    ) -> u32 {
        code(crate::route::<C, _, _>(words, hub, numbers, outcomes))
    }
}
