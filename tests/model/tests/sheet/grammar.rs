//! The reader beside the rules of the sheet put the other way round: all short
//! sheets are made by the rules, and no other short text may be read.

use std::collections::BTreeMap;
use std::slice;

use ring_model::sheet::{read, Hub};

/// The bytes of the texts that are tried.
const ALPHABET: &[u8] = b"a1\",\r\n\0";
/// Their longest.
const LONGEST: usize = 7;

/// Fields by how they are written, with what they say.
type Fields = BTreeMap<Vec<u8>, Vec<u8>>;
/// Sheets likewise.
type Sheets = BTreeMap<Vec<u8>, Vec<Hub>>;

/// All strings of these pieces that are no longer than this.
fn strings(pieces: &[&[u8]], longest: usize) -> Vec<Vec<u8>> {
    let mut all: Vec<Vec<u8>> = vec![vec![]];
    let mut next = 0;
    while next < all.len() {
        let start = all[next].clone();
        let longer = pieces.iter().map(|piece| [&start, *piece].concat());
        all.extend(longer.filter(|string| string.len() <= longest));
        next += 1;
    }
    all
}

/// Fields of these bytes unquoted, and of these pieces between quotes. In
/// such a piece, two quotes say one.
fn fields(unquoted: &[&[u8]], between: &[&[u8]]) -> Fields {
    let plain = strings(unquoted, LONGEST)
        .into_iter()
        .map(|field| (field.clone(), field));
    let quoted = strings(between, LONGEST - 2).into_iter().map(|inside| {
        let says = String::from_utf8(inside.clone())
            .expect("it is text")
            .replace("\"\"", "\"");
        ([b"\"", &inside[..], b"\""].concat(), says.into_bytes())
    });
    plain.chain(quoted).collect()
}

/// Every row without its end.
fn rows() -> Vec<(Vec<u8>, Hub)> {
    let names = fields(&[b"a", b"1"], &[b"a", b"1", b",", b"\r", b"\n", b"\"\""]);
    let numbers = fields(&[b"1"], &[b"1"]);
    let mut rows = Vec::new();
    for (name, says) in &names {
        for (number, digits) in numbers.iter().filter(|(_, digits)| !digits.is_empty()) {
            let hub = Hub {
                name: says.clone(),
                // The number of so many ones.
                identifier: digits.iter().fold(0, |sum, _| 10 * sum + 1),
            };
            rows.push(([name, &b","[..], number].concat(), hub));
        }
    }
    rows.retain(|(text, _)| text.len() <= LONGEST);
    rows
}

/// Every sheet, made from its rows: each can be made in one way only.
fn sheets() -> Sheets {
    let rows = rows();
    let mut sheets = Sheets::from([(vec![], vec![])]);
    let mut ended = vec![(vec![], vec![])];
    while let Some((start, hubs)) = ended.pop() {
        for (row, hub) in &rows {
            let text = [&start[..], row].concat();
            let whole = [&text, &b"\r\n"[..]].concat();
            let list = [&hubs[..], slice::from_ref(hub)].concat();
            if text.len() <= LONGEST {
                assert_eq!(sheets.insert(text, list.clone()), None);
            }
            if whole.len() <= LONGEST {
                assert_eq!(sheets.insert(whole.clone(), list.clone()), None);
                ended.push((whole, list));
            }
        }
    }
    sheets
}

/// Every text of at most the longest length over the alphabet.
#[test]
fn every_short_text() {
    let sheets = sheets();
    let bytes: Vec<&[u8]> = ALPHABET.chunks(1).collect();
    let mut read_ones = 0;
    for text in strings(&bytes, LONGEST) {
        let should = sheets.get(&text).cloned().ok_or(19);
        read_ones += usize::from(should.is_ok());
        assert_eq!(read(&text), should, "\"{}\"", text.escape_ascii());
    }
    assert_eq!(read_ones, sheets.len());
    assert!(sheets.values().any(|hubs| hubs.len() == 2));
}
