//! Faults planted in front of the engine's sheet calls.

mod reads;
mod writes;

pub use reads::{same as same_read, READS};
pub use writes::{same as same_write, WRITES};

use ring_model::bytes::NO_REFUSAL;

/// A refused call that leaves a mark in the first byte of an output.
fn mark_if_refused(code: u32, output: &mut [u8]) -> u32 {
    if let (true, Some(byte)) = (code != NO_REFUSAL, output.first_mut()) {
        *byte ^= 1;
    }
    code
}
