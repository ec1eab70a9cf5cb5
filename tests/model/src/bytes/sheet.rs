//! The office sheet on bytes (document 02, 2026-03): identifiers of four bytes
//! each, counts of eight, lowest first.

use super::{words_of, write_words, NO_REFUSAL};
use crate::refusal::{OUTPUT_SHORT, ROOM_SHORT};
use crate::sheet::{hubs, names, read, write, Hub};

/// Bytes of the two counts of a sheet.
pub const COUNTS_BYTES: usize = 16;

/// Reads a sheet into identifiers and names; rows and bytes of names are
/// counted. Too short counts are 17, asked first.
pub fn ring_sheet_read(
    text: &[u8],
    identifiers: &mut [u8],
    names: &mut [u8],
    counts: &mut [u8],
) -> u32 {
    if counts.len() < COUNTS_BYTES {
        return OUTPUT_SHORT;
    }
    match read(text) {
        Ok(hubs) => give_hubs(&hubs, identifiers, names, counts),
        Err(number) => number,
    }
}

/// Hubs that were read, into outputs that may be too short for them.
pub fn give_hubs(
    hubs: &[Hub],
    identifiers: &mut [u8],
    names_out: &mut [u8],
    counts: &mut [u8],
) -> u32 {
    let names = names(hubs);
    if identifiers.len() / 4 < hubs.len() || names_out.len() < names.len() {
        return ROOM_SHORT;
    }
    let words: Vec<u32> = hubs.iter().map(|hub| hub.identifier).collect();
    write_words(identifiers, &words);
    names_out[..names.len()].copy_from_slice(&names);
    write_counts(counts, hubs.len(), names.len());
    NO_REFUSAL
}

/// Writes the sheet of these names and identifiers; rows and bytes of text are
/// counted. Too short counts are 17, asked first.
pub fn ring_sheet_write(
    names: &[u8],
    identifiers: &[u8],
    text: &mut [u8],
    counts: &mut [u8],
) -> u32 {
    if counts.len() < COUNTS_BYTES {
        return OUTPUT_SHORT;
    }
    match hubs(names, &words_of(identifiers, usize::MAX)) {
        Ok(hubs) => give_text(&write(&hubs), hubs.len(), text, counts),
        Err(number) => number,
    }
}

/// A sheet of so many rows, into an output that may be too short for it.
pub fn give_text(sheet: &[u8], rows: usize, text: &mut [u8], counts: &mut [u8]) -> u32 {
    if text.len() < sheet.len() {
        return ROOM_SHORT;
    }
    text[..sheet.len()].copy_from_slice(sheet);
    write_counts(counts, rows, sheet.len());
    NO_REFUSAL
}

fn write_counts(counts: &mut [u8], rows: usize, bytes: usize) {
    counts[..8].copy_from_slice(&(rows as u64).to_le_bytes());
    counts[8..COUNTS_BYTES].copy_from_slice(&(bytes as u64).to_le_bytes());
}
