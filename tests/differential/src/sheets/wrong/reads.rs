//! Wrong readers of sheets: what is wrong, and the call.

use ring_model::bytes::{give_hubs, COUNTS_BYTES, NO_REFUSAL};
use ring_model::refusal::{IDENTIFIER_TOO_LARGE, NO_SHEET, OUTPUT_SHORT, ROOM_SHORT};
use ring_model::sheet::{quoted, read, rows, Hub};

use super::mark_if_refused;
use crate::calls::SheetRead;
use crate::engine::sheet_read;
use crate::sheets::room::for_text;

/// The wrong readers.
pub const READS: [(&str, SheetRead); 18] = [
    ("a last row without CR LF is lost", |text, identifiers, names, counts| {
        changed(text, identifiers, names, counts, without_open_row)
    }),
    ("quotes are left doubled", |text, identifiers, names, counts| {
        changed(text, identifiers, names, counts, with_quotes_doubled)
    }),
    ("an empty name is lost", |text, identifiers, names, counts| {
        changed(text, identifiers, names, counts, |_, hubs| named(hubs))
    }),
    ("an LF alone ends a row", |text, identifiers, names, counts| {
        mended(text, identifiers, names, counts, |text| {
            text.replace("\r\n", "\n").replace('\n', "\r\n")
        })
    }),
    ("a CR alone ends a row", |text, identifiers, names, counts| {
        mended(text, identifiers, names, counts, |text| {
            text.replace("\r\n", "\r").replace('\r', "\r\n")
        })
    }),
    ("an empty last line is passed over", |text, identifiers, names, counts| {
        mended(text, identifiers, names, counts, |text| text.trim_end_matches("\r\n").to_string())
    }),
    ("a last CR needs no LF", |text, identifiers, names, counts| {
        mended(text, identifiers, names, counts, |text| text.trim_end_matches('\r').to_string())
    }),
    ("an empty identifier is 0", |text, identifiers, names, counts| {
        mended(text, identifiers, names, counts, |text| text.replace(",\r\n", ",0\r\n"))
    }),
    ("a plus is passed over", |text, identifiers, names, counts| {
        mended(text, identifiers, names, counts, |text| text.replace(",+", ","))
    }),
    ("a zero byte in a name passes", |text, identifiers, names, counts| {
        mended(text, identifiers, names, counts, |text| text.replace('\0', "a"))
    }),
    ("more than ten digits are too large", more_than_ten),
    ("21 before 20", room_before_identifiers),
    ("21 before 19", room_before_sheet),
    ("20 before 19", identifiers_before_sheet),
    ("17 is asked late", counts_asked_late),
    ("a refused reading writes identifiers", |text, identifiers, names, counts| {
        mark_if_refused(sheet_read(text, identifiers, names, counts), identifiers)
    }),
    ("a refused reading writes names", |text, identifiers, names, counts| {
        mark_if_refused(sheet_read(text, identifiers, names, counts), names)
    }),
    ("bytes behind the names are cleared", clears_behind),
];

/// A reader that gives another list of what it read.
fn changed(
    text: &[u8],
    identifiers: &mut [u8],
    names: &mut [u8],
    counts: &mut [u8],
    change: impl Fn(&[u8], Vec<Hub>) -> Vec<Hub>,
) -> u32 {
    match (counts.len() < COUNTS_BYTES, read(text)) {
        (false, Ok(hubs)) => give_hubs(&change(text, hubs), identifiers, names, counts),
        _ => sheet_read(text, identifiers, names, counts),
    }
}

/// A reader that is made as the wrong ones are, and is not wrong.
pub fn same(text: &[u8], identifiers: &mut [u8], names: &mut [u8], counts: &mut [u8]) -> u32 {
    match mended(text, identifiers, names, counts, str::to_string) {
        NO_REFUSAL => changed(text, identifiers, names, counts, |_, hubs| hubs),
        code => code,
    }
}

fn without_open_row(text: &[u8], mut hubs: Vec<Hub>) -> Vec<Hub> {
    if !text.ends_with(b"\r\n") {
        hubs.pop();
    }
    hubs
}

fn with_quotes_doubled(_: &[u8], mut hubs: Vec<Hub>) -> Vec<Hub> {
    for hub in &mut hubs {
        let field = quoted(&hub.name);
        hub.name = field[1..field.len() - 1].to_vec();
    }
    hubs
}

fn named(hubs: Vec<Hub>) -> Vec<Hub> {
    hubs.into_iter().filter(|hub| !hub.name.is_empty()).collect()
}

/// A reader that takes a text for the one that it becomes when it is mended, if it is none itself.
fn mended(
    text: &[u8],
    identifiers: &mut [u8],
    names: &mut [u8],
    counts: &mut [u8],
    mend: impl Fn(&str) -> String,
) -> u32 {
    match (sheet_read(text, identifiers, names, counts), std::str::from_utf8(text)) {
        (NO_SHEET, Ok(words)) => sheet_read(mend(words).as_bytes(), identifiers, names, counts),
        (code, _) => code,
    }
}

fn more_than_ten(text: &[u8], identifiers: &mut [u8], names: &mut [u8], counts: &mut [u8]) -> u32 {
    let many = rows(text).is_some_and(|rows| rows.iter().any(|row| row.digits.len() > 10));
    match many && counts.len() >= COUNTS_BYTES {
        true => IDENTIFIER_TOO_LARGE,
        false => sheet_read(text, identifiers, names, counts),
    }
}

fn room_before_identifiers(
    text: &[u8],
    identifiers: &mut [u8],
    names: &mut [u8],
    counts: &mut [u8],
) -> u32 {
    let need = for_text(text, rows(text).as_deref());
    match sheet_read(text, identifiers, names, counts) {
        IDENTIFIER_TOO_LARGE if identifiers.len() < need[0] || names.len() < need[1] => ROOM_SHORT,
        code => code,
    }
}

/// There is no room for the rows in front of the one that is none.
fn room_before_sheet(
    text: &[u8],
    identifiers: &mut [u8],
    names: &mut [u8],
    counts: &mut [u8],
) -> u32 {
    sound_part_first(text, identifiers, names, counts, ROOM_SHORT)
}

/// An identifier is too large in front of the row that is none.
fn identifiers_before_sheet(
    text: &[u8],
    identifiers: &mut [u8],
    names: &mut [u8],
    counts: &mut [u8],
) -> u32 {
    sound_part_first(text, identifiers, names, counts, IDENTIFIER_TOO_LARGE)
}

/// A reader that looks at the rows in front of the one that is none, for this refusal alone.
fn sound_part_first(
    text: &[u8],
    identifiers: &mut [u8],
    names: &mut [u8],
    counts: &mut [u8],
    number: u32,
) -> u32 {
    let code = sheet_read(text, identifiers, names, counts);
    if code != NO_SHEET {
        return code;
    }
    let mut parts = (0..text.len()).map(|end| &text[..end]);
    let Some(sound) = parts.rfind(|part| rows(part).is_some()) else {
        return code;
    };
    let (mut places, mut bytes) = (identifiers.to_vec(), names.to_vec());
    match sheet_read(sound, &mut places, &mut bytes, &mut [0; COUNTS_BYTES]) {
        refusal if refusal == number => number,
        _ => code,
    }
}

fn counts_asked_late(
    text: &[u8],
    identifiers: &mut [u8],
    names: &mut [u8],
    counts: &mut [u8],
) -> u32 {
    let code = sheet_read(text, identifiers, names, counts);
    if code != OUTPUT_SHORT {
        return code;
    }
    let (mut places, mut bytes) = (identifiers.to_vec(), names.to_vec());
    match sheet_read(text, &mut places, &mut bytes, &mut [0; COUNTS_BYTES]) {
        NO_REFUSAL => code,
        other => other,
    }
}

fn clears_behind(text: &[u8], identifiers: &mut [u8], names: &mut [u8], counts: &mut [u8]) -> u32 {
    let code = sheet_read(text, identifiers, names, counts);
    if let (NO_REFUSAL, [_, bytes]) = (code, for_text(text, rows(text).as_deref())) {
        names[bytes..].fill(0);
    }
    code
}
