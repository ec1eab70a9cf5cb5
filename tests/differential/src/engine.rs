//! The engine's twelve C calls, as functions on slices. This is the only file with `unsafe`.
#![allow(unsafe_code)]

mod declared;

use declared::{
    ring_fresh, ring_fresh_by, ring_fresh_by_cards, ring_fresh_cards, ring_offer, ring_owner,
    ring_roll, ring_route, ring_sheet_read, ring_sheet_write, ring_step, ring_step_cards,
};

/// Founds a ring by the smallest identifier.
pub fn fresh(words: &mut [u8], identifiers: &[u8]) -> u32 {
    // SAFETY: both slices are valid for their lengths, the borrows keep them apart, and no pointer
    // is kept.
    unsafe { ring_fresh(words.as_mut_ptr(), words.len(), identifiers.as_ptr(), identifiers.len()) }
}

/// Founds a ring by the hub that is named.
pub fn fresh_by(words: &mut [u8], identifiers: &[u8], founder: u32) -> u32 {
    let (names, length) = (identifiers.as_ptr(), identifiers.len());
    // SAFETY: as for fresh.
    unsafe { ring_fresh_by(words.as_mut_ptr(), words.len(), names, length, founder) }
}

/// Makes one step.
pub fn step(words: &mut [u8], operation: u32, x: u32, y: u32, out: &mut [u8]) -> u32 {
    // SAFETY: as for fresh.
    unsafe {
        ring_step(words.as_mut_ptr(), words.len(), operation, x, y, out.as_mut_ptr(), out.len())
    }
}

/// Asks for the node that holds a key.
pub fn owner(words: &[u8], key: u32, out: &mut [u8]) -> u32 {
    // SAFETY: as for fresh; the record is only read.
    unsafe { ring_owner(words.as_ptr(), words.len(), key, out.as_mut_ptr(), out.len()) }
}

/// Calls the roll from a hub.
pub fn roll(words: &[u8], hub: u32, roll: &mut [u8], length: &mut [u8]) -> u32 {
    // SAFETY: as for fresh, of three slices; the record is only read.
    unsafe {
        ring_roll(
            words.as_ptr(),
            words.len(),
            hub,
            roll.as_mut_ptr(),
            roll.len(),
            length.as_mut_ptr(),
            length.len(),
        )
    }
}

/// Founds a ring and its cards by the smallest identifier.
pub fn fresh_cards(words: &mut [u8], cards: &mut [u8], identifiers: &[u8]) -> u32 {
    // SAFETY: as for fresh, of three slices.
    unsafe {
        ring_fresh_cards(
            words.as_mut_ptr(),
            words.len(),
            cards.as_mut_ptr(),
            cards.len(),
            identifiers.as_ptr(),
            identifiers.len(),
        )
    }
}

/// Founds a ring and its cards by the hub that is named.
pub fn fresh_by_cards(words: &mut [u8], cards: &mut [u8], identifiers: &[u8], founder: u32) -> u32 {
    // SAFETY: as for fresh, of three slices.
    unsafe {
        ring_fresh_by_cards(
            words.as_mut_ptr(),
            words.len(),
            cards.as_mut_ptr(),
            cards.len(),
            identifiers.as_ptr(),
            identifiers.len(),
            founder,
        )
    }
}

/// Makes one step with cards: operation, x and y.
pub fn step_cards(
    words: &mut [u8],
    cards: &mut [u8],
    [operation, x, y]: [u32; 3],
    out: &mut [u8],
) -> u32 {
    // SAFETY: as for fresh, of three slices.
    unsafe {
        ring_step_cards(
            words.as_mut_ptr(),
            words.len(),
            cards.as_mut_ptr(),
            cards.len(),
            operation,
            x,
            y,
            out.as_mut_ptr(),
            out.len(),
        )
    }
}

/// Offers a card: machine, revision and price.
pub fn offer(words: &[u8], cards: &mut [u8], [machine, revision, price]: [u32; 3]) -> u32 {
    // SAFETY: as for fresh; the record is only read.
    unsafe {
        ring_offer(
            words.as_ptr(),
            words.len(),
            cards.as_mut_ptr(),
            cards.len(),
            machine,
            revision,
            price,
        )
    }
}

/// Asks a list of numbers at one hub.
pub fn route(words: &mut [u8], hub: u32, numbers: &[u8], outcomes: &mut [u8]) -> u32 {
    // SAFETY: as for fresh, of three slices.
    unsafe {
        ring_route(
            words.as_mut_ptr(),
            words.len(),
            hub,
            numbers.as_ptr(),
            numbers.len(),
            outcomes.as_mut_ptr(),
            outcomes.len(),
        )
    }
}

/// Reads a sheet.
pub fn sheet_read(text: &[u8], identifiers: &mut [u8], names: &mut [u8], counts: &mut [u8]) -> u32 {
    // SAFETY: as for fresh, of four slices.
    unsafe {
        ring_sheet_read(
            text.as_ptr(),
            text.len(),
            identifiers.as_mut_ptr(),
            identifiers.len(),
            names.as_mut_ptr(),
            names.len(),
            counts.as_mut_ptr(),
            counts.len(),
        )
    }
}

/// Writes a sheet.
pub fn sheet_write(names: &[u8], identifiers: &[u8], text: &mut [u8], counts: &mut [u8]) -> u32 {
    // SAFETY: as for fresh, of four slices.
    unsafe {
        ring_sheet_write(
            names.as_ptr(),
            names.len(),
            identifiers.as_ptr(),
            identifiers.len(),
            text.as_mut_ptr(),
            text.len(),
            counts.as_mut_ptr(),
            counts.len(),
        )
    }
}
