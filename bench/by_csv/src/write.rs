//! From names and identifiers to a sheet.

use std::ffi::CStr;

use csv::{Terminator, WriterBuilder};
use ring_model::refusal::{NO_SHEET, ROOM_SHORT};

use crate::tell;

/// `ring_sheet_write` on slices; `counts` has sixteen bytes. Returns 0 or the
/// number of the first fault.
pub fn write(names: &[u8], identifiers: &[u8], text: &mut [u8], counts: &mut [u8]) -> u32 {
    let room = text.len();
    let mut rest = text;
    match rows(names, identifiers, &mut rest) {
        Ok(rows) => tell(counts, rows, room - rest.len()),
        Err(number) => number,
    }
}

/// How many rows; `rest` is the room that they leave.
fn rows(mut names: &[u8], identifiers: &[u8], rest: &mut &mut [u8]) -> Result<usize, u32> {
    // A field is quoted where it must be, which is the crate's own way.
    let mut writer = WriterBuilder::new()
        .terminator(Terminator::CRLF)
        .from_writer(rest);
    let mut decimal = itoa::Buffer::new();
    let identifiers = identifiers.chunks_exact(4);
    let count = identifiers.len();
    for four in identifiers {
        let name = CStr::from_bytes_until_nul(names).map_err(|_| NO_SHEET)?;
        let name = name.to_bytes();
        names = &names[name.len() + 1..];
        let identifier = u32::from_le_bytes([four[0], four[1], four[2], four[3]]);
        let digits = decimal.format(identifier);
        let row = [name, digits.as_bytes()];
        writer.write_record(row).map_err(|_| ROOM_SHORT)?;
    }
    if !names.is_empty() {
        return Err(NO_SHEET);
    }
    writer.flush().map_err(|_| ROOM_SHORT)?;
    Ok(count)
}
