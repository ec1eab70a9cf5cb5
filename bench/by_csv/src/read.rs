//! From a sheet to identifiers and names.

use csv::{ByteRecord, ReaderBuilder, Terminator};
use ring_model::refusal::{IDENTIFIER_TOO_LARGE, NO_SHEET, ROOM_SHORT};

use crate::tell;

/// `ring_sheet_read` on slices; `counts` has sixteen bytes. Returns 0 or the
/// number of the first fault.
pub fn read(text: &[u8], identifiers: &mut [u8], names: &mut [u8], counts: &mut [u8]) -> u32 {
    match rows(text, identifiers, names) {
        Ok((rows, bytes)) => tell(counts, rows, bytes),
        Err(number) => number,
    }
}

/// How many rows, and how many bytes of names.
fn rows(text: &[u8], identifiers: &mut [u8], names: &mut [u8]) -> Result<(usize, usize), u32> {
    // Flexible: the fields are counted here, and not by the crate once more.
    let mut reader = ReaderBuilder::new()
        .has_headers(false)
        .flexible(true)
        .terminator(Terminator::CRLF)
        .from_reader(text);
    let mut record = ByteRecord::with_capacity(256, 2);
    let mut places = identifiers.chunks_exact_mut(4);
    let (mut rows, mut bytes) = (0, 0);
    while reader.read_byte_record(&mut record).map_err(|_| NO_SHEET)? {
        if record.len() != 2 {
            return Err(NO_SHEET);
        }
        let (name, identifier) = (&record[0], number(&record[1])?);
        let place = places.next().ok_or(ROOM_SHORT)?;
        place.copy_from_slice(&identifier.to_le_bytes());
        let end = bytes + name.len();
        let room = names.get_mut(bytes..=end).ok_or(ROOM_SHORT)?;
        room[..name.len()].copy_from_slice(name);
        room[name.len()] = 0;
        (rows, bytes) = (rows + 1, end + 1);
    }
    Ok((rows, bytes))
}

/// The number that these digits say.
fn number(digits: &[u8]) -> Result<u32, u32> {
    let mut value = 0;
    for digit in digits {
        let digit = digit.wrapping_sub(b'0');
        if digit > 9 {
            return Err(NO_SHEET);
        }
        value = 10 * value + u64::from(digit);
        if value > u64::from(u32::MAX) {
            return Err(IDENTIFIER_TOO_LARGE);
        }
    }
    if digits.is_empty() {
        return Err(NO_SHEET);
    }
    Ok(value as u32)
}
