//! A roll call for C. Its hubs are words of four bytes, written where they are;
//! what is left over of the bytes lent for them is not lent.

use super::{carried, carry_back, code, LENGTH_BYTES, RECORD_BYTES};
use crate::check::Check;
use crate::record::RECORD_WORDS;
use crate::refusal;

/// A roll call; the record is carried over.
pub fn roll<C: Check>(bytes: &[u8], hub: u32, roll: &mut [[u8; 4]], length: &mut [u8]) -> u32 {
    if length.len() < LENGTH_BYTES {
        return refusal::OUTPUT_SHORT;
    }
    let Some(record) = bytes.get(..RECORD_BYTES) else {
        return refusal::RECORD_SHORT;
    };
    let words = carried::<RECORD_WORDS>(record);
    let outcome = crate::roll_call::<C, _, _>(&words, hub, roll);
    code(outcome.map(|count| carry_back(length, &[count as u32])))
}

/// The call on the bytes where they are.
pub mod in_place {
    use super::*;

    /// A roll call.
    pub fn roll<C: Check>(
        words: &[[u8; 4]],
        hub: u32,
        roll: &mut [[u8; 4]],
        length: &mut [u8],
    ) -> u32 {
        if length.len() < LENGTH_BYTES {
            return refusal::OUTPUT_SHORT;
        }
        let outcome = crate::roll_call::<C, _, _>(words, hub, roll);
        code(outcome.map(|count| carry_back(length, &[count as u32])))
    }
}
