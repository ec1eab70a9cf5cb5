//! The office sheet (document 02, 2026-03): hubs in a comma-separated text as
//! RFC 4180 has it, a name and an identifier in each row.

use crate::refusal::{IDENTIFIER_TOO_LARGE, NO_SHEET};

mod rows;

pub use rows::{rows, Row};

/// The largest identifier, in decimal.
const LARGEST: &[u8] = b"4294967295";

/// A hub of the list.
#[derive(Clone, Debug, PartialEq, Eq)]
pub struct Hub {
    /// Its name: any bytes but zero bytes, or none at all.
    pub name: Vec<u8>,
    /// Its identifier.
    pub identifier: u32,
}

/// The hubs of a text. The whole of it must be a sheet before any identifier
/// is weighed.
pub fn read(text: &[u8]) -> Result<Vec<Hub>, u32> {
    let rows = rows(text).ok_or(NO_SHEET)?;
    rows.into_iter().map(hub).collect()
}

fn hub(row: Row) -> Result<Hub, u32> {
    let identifier = value(&row.digits).ok_or(IDENTIFIER_TOO_LARGE)?;
    Ok(Hub {
        name: row.name,
        identifier,
    })
}

/// The number that decimal digits stand for, unless it is above the largest.
/// Numbers without leading zeros are in order of their lengths, and those of
/// one length are in order of their text.
fn value(digits: &[u8]) -> Option<u32> {
    let zeros = digits.iter().take_while(|&&digit| digit == b'0').count();
    let digits = &digits[zeros..];
    if (digits.len(), digits) > (LARGEST.len(), LARGEST) {
        return None;
    }
    let append = |sum: u32, digit: &u8| 10 * sum + u32::from(digit - b'0');
    Some(digits.iter().fold(0, append))
}

/// The names of the hubs, each with a zero byte behind it.
pub fn names(hubs: &[Hub]) -> Vec<u8> {
    let ended = |hub: &Hub| [&hub.name[..], &[0]].concat();
    hubs.iter().flat_map(ended).collect()
}

/// The hubs that have these names and identifiers. The names must be one
/// zero-ended name for each identifier, and nothing else.
pub fn hubs(names: &[u8], identifiers: &[u32]) -> Result<Vec<Hub>, u32> {
    let ended: Vec<&[u8]> = names.split_inclusive(|&byte| byte == 0).collect();
    if ended.len() != identifiers.len() {
        return Err(NO_SHEET);
    }
    let hub = |(ended, &identifier): (&&[u8], &u32)| {
        let name = ended.strip_suffix(&[0]).ok_or(NO_SHEET)?.to_vec();
        Ok(Hub { name, identifier })
    };
    ended.iter().zip(identifiers).map(hub).collect()
}

/// The sheet of a list of hubs.
pub fn write(hubs: &[Hub]) -> Vec<u8> {
    write_quoting(hubs, must_be_quoted)
}

/// The sheet in which these names are quoted.
pub fn write_quoting(hubs: &[Hub], which: impl Fn(&[u8]) -> bool) -> Vec<u8> {
    let row = |hub: &Hub| {
        let name = match which(&hub.name) {
            true => quoted(&hub.name),
            false => hub.name.clone(),
        };
        let identifier = hub.identifier.to_string();
        [&name, &b","[..], identifier.as_bytes(), b"\r\n"].concat()
    };
    hubs.iter().flat_map(row).collect()
}

/// Whether a name cannot stand as it is.
pub fn must_be_quoted(name: &[u8]) -> bool {
    name.iter().any(|byte| b"\",\r\n".contains(byte))
}

/// A field between quotes, its own quotes doubled.
pub fn quoted(field: &[u8]) -> Vec<u8> {
    let pieces: Vec<&[u8]> = field.split(|&byte| byte == b'"').collect();
    [b"\"", &pieces.join(&b"\"\""[..])[..], b"\""].concat()
}
