//! Wrong writers of sheets: what is wrong, and the call.

use ring_model::bytes::{give_text, COUNTS_BYTES, NO_REFUSAL};
use ring_model::refusal::{NO_SHEET, OUTPUT_SHORT, ROOM_SHORT};
use ring_model::sheet::{hubs, must_be_quoted, write, write_quoting, Hub};

use super::mark_if_refused;
use crate::calls::{words_of, SheetWrite};
use crate::engine::sheet_write;
use crate::wrong_foundings::with_left_over;

/// The wrong writers.
pub const WRITES: [(&str, SheetWrite); 14] = [
    ("every name is quoted", |names, identifiers, text, counts| {
        other(names, identifiers, text, counts, |hubs| write_quoting(hubs, |_| true))
    }),
    ("an empty name is quoted", |names, identifiers, text, counts| {
        quoting(names, identifiers, text, counts, |name| name.is_empty() || must_be_quoted(name))
    }),
    ("a name with a blank is quoted", |names, identifiers, text, counts| {
        quoting(names, identifiers, text, counts, |name| {
            name.contains(&b' ') || must_be_quoted(name)
        })
    }),
    ("a CR alone is not quoted", |names, identifiers, text, counts| {
        quoting(names, identifiers, text, counts, |name| {
            name.iter().any(|byte| b"\",\n".contains(byte))
        })
    }),
    ("an LF alone is not quoted", |names, identifiers, text, counts| {
        quoting(names, identifiers, text, counts, |name| {
            name.iter().any(|byte| b"\",\r".contains(byte))
        })
    }),
    ("the last row written has no end", |names, identifiers, text, counts| {
        other(names, identifiers, text, counts, |hubs| {
            let sheet = write(hubs);
            sheet[..sheet.len().saturating_sub(2)].to_vec()
        })
    }),
    ("rows end in LF alone", |names, identifiers, text, counts| {
        other(names, identifiers, text, counts, |hubs| {
            let ended = |hub| write(std::slice::from_ref(hub));
            let rows = hubs.iter().map(ended);
            rows.flat_map(|row| [&row[..row.len() - 2], b"\n"].concat()).collect()
        })
    }),
    ("names behind the last identifier are passed over", passes_over_names),
    ("a last name without its zero byte passes", ends_last_name),
    ("identifiers left over are written", reads_left_over),
    ("21 before 19, when writing", room_before_names),
    ("17 is asked late, when writing", counts_asked_late),
    ("a refused writing writes text", |names, identifiers, text, counts| {
        mark_if_refused(sheet_write(names, identifiers, text, counts), text)
    }),
    ("a refused writing writes counts", |names, identifiers, text, counts| {
        mark_if_refused(sheet_write(names, identifiers, text, counts), counts)
    }),
];

/// A writer that makes another text of a list.
fn other(
    names: &[u8],
    identifiers: &[u8],
    text: &mut [u8],
    counts: &mut [u8],
    write: impl Fn(&[Hub]) -> Vec<u8>,
) -> u32 {
    match (counts.len() < COUNTS_BYTES, hubs(names, &words_of(identifiers))) {
        (false, Ok(hubs)) => give_text(&write(&hubs), hubs.len(), text, counts),
        _ => sheet_write(names, identifiers, text, counts),
    }
}

/// A writer that quotes these names.
fn quoting(
    names: &[u8],
    identifiers: &[u8],
    text: &mut [u8],
    counts: &mut [u8],
    which: impl Fn(&[u8]) -> bool,
) -> u32 {
    other(names, identifiers, text, counts, |hubs| write_quoting(hubs, &which))
}

/// A writer that is made as the wrong ones are, and is not wrong.
pub fn same(names: &[u8], identifiers: &[u8], text: &mut [u8], counts: &mut [u8]) -> u32 {
    quoting(names, identifiers, text, counts, must_be_quoted)
}

/// The length of the first names, one for each identifier, if there are so many.
fn first_names(names: &[u8], identifiers: &[u8]) -> Option<usize> {
    let mut ends = (0..names.len()).filter(|&i| names[i] == 0).map(|zero| zero + 1);
    match identifiers.len() / 4 {
        0 => Some(0),
        hubs => ends.nth(hubs - 1),
    }
}

fn passes_over_names(names: &[u8], identifiers: &[u8], text: &mut [u8], counts: &mut [u8]) -> u32 {
    let first = first_names(names, identifiers).unwrap_or(names.len());
    sheet_write(&names[..first], identifiers, text, counts)
}

fn ends_last_name(names: &[u8], identifiers: &[u8], text: &mut [u8], counts: &mut [u8]) -> u32 {
    let open = names.last().is_some_and(|&byte| byte != 0);
    match sheet_write(names, identifiers, text, counts) {
        NO_SHEET if open => sheet_write(&[names, &[0]].concat(), identifiers, text, counts),
        code => code,
    }
}

fn reads_left_over(names: &[u8], identifiers: &[u8], text: &mut [u8], counts: &mut [u8]) -> u32 {
    sheet_write(names, &with_left_over(identifiers), text, counts)
}

fn room_before_names(names: &[u8], identifiers: &[u8], text: &mut [u8], counts: &mut [u8]) -> u32 {
    match sheet_write(names, identifiers, text, counts) {
        NO_SHEET if text.len() < names.len() => ROOM_SHORT,
        code => code,
    }
}

fn counts_asked_late(names: &[u8], identifiers: &[u8], text: &mut [u8], counts: &mut [u8]) -> u32 {
    let code = sheet_write(names, identifiers, text, counts);
    if code != OUTPUT_SHORT {
        return code;
    }
    match sheet_write(names, identifiers, &mut text.to_vec(), &mut [0; COUNTS_BYTES]) {
        NO_REFUSAL => code,
        other => other,
    }
}
