//! How long the outputs must be, what is written into them, and what stays.

use crate::{counted, outputs, read_into, within, write_into, BEFORE};

/// Three rows: 12 bytes of identifiers, 8 of names.
const TEXT: &[u8] = b"ab,1\r\n,67305985\r\n\"\"\"c\n\",4294967295";
const IDENTIFIERS: [u8; 12] = [1, 0, 0, 0, 1, 2, 3, 4, 255, 255, 255, 255];
const NAMES: &[u8] = b"ab\0\0\"c\n\0";
/// The text as it is written.
const WRITTEN: &[u8] = b"ab,1\r\n,67305985\r\n\"\"\"c\n\",4294967295\r\n";

/// Every length up to some bytes more than enough: enough or refused, and
/// bytes behind what is written stay.
#[test]
fn every_length_read() {
    for identifiers in 0..=20 {
        for names in 0..=11 {
            let lengths = [identifiers, names, 16];
            let (code, after) = read_into(TEXT, lengths);
            if identifiers < 12 || names < 8 {
                assert_eq!((code, after), (21, outputs(lengths)));
                continue;
            }
            let should = [
                within(&IDENTIFIERS, identifiers),
                within(NAMES, names),
                counted(3, 8).to_vec(),
            ];
            assert_eq!((code, after), (0, should));
        }
    }
}

#[test]
fn every_length_written() {
    for length in 0..=WRITTEN.len() + 9 {
        let (code, text, counts) = write_into(NAMES, &IDENTIFIERS, [length, 16]);
        if length < WRITTEN.len() {
            assert_eq!((code, counts), (21, vec![BEFORE; 16]));
            assert_eq!(text, vec![BEFORE; length]);
            continue;
        }
        assert_eq!((code, text), (0, within(WRITTEN, length)));
        assert_eq!(counts, counted(3, WRITTEN.len() as u8));
    }
}

#[test]
fn counts_longer_than_needed() {
    for length in 16..40 {
        let (code, [_, _, counts]) = read_into(TEXT, [12, 8, length]);
        assert_eq!((code, counts), (0, within(&counted(3, 8), length)));
        let (code, _, counts) = write_into(NAMES, &IDENTIFIERS, [100, length]);
        let should = counted(3, WRITTEN.len() as u8);
        assert_eq!((code, counts), (0, within(&should, length)));
    }
}

/// One to three bytes left over are no identifier, wherever they come from.
#[test]
fn bytes_left_over() {
    for over in 0..4 {
        let longer = [&IDENTIFIERS[..], &[9; 3][..over]].concat();
        let (code, text, _) = write_into(NAMES, &longer, [WRITTEN.len(), 16]);
        assert_eq!((code, &text[..]), (0, WRITTEN));
        assert_eq!(write_into(b"", &[9; 3][..over], [0, 16]).0, 0);
    }
    for short in 1..4 {
        let shorter = &IDENTIFIERS[..12 - short];
        assert_eq!(write_into(NAMES, shorter, [100, 16]).0, 19);
        let (code, text, _) = write_into(b"ab\0\0", shorter, [17, 16]);
        assert_eq!((code, &text[..]), (0, &WRITTEN[..17]));
    }
}

/// An empty list needs no room, and leaves what there is.
#[test]
fn empty_lists() {
    for length in [0, 1, 7] {
        let (code, after) = read_into(b"", [length, length, 16]);
        let untouched = vec![BEFORE; length];
        let should = [untouched.clone(), untouched.clone(), vec![0; 16]];
        assert_eq!((code, after), (0, should));
        let written = write_into(b"", b"", [length, 16]);
        assert_eq!(written, (0, untouched, vec![0; 16]));
    }
}

/// The header's rule of thumb: as many bytes of names as of text, and two more
/// of identifiers, are enough for any sheet, and for the tightest just so.
#[test]
fn room_by_the_length_of_the_text() {
    for rows in 1..100 {
        let mut text = b",1\r\n".repeat(rows);
        text.truncate(text.len() - 2);
        let room = [text.len() + 2, text.len(), 16];
        assert_eq!(read_into(&text, room).0, 0);
        assert_eq!(read_into(&text, [text.len() + 1, text.len(), 16]).0, 21);
    }
}

/// Counts above 65535: eight bytes each, lowest first.
#[test]
fn large_counts() {
    let rows = 70_000;
    let text = b"abc,1\r\n".repeat(rows);
    let (code, [identifiers, names, counts]) = read_into(&text, [4 * rows, 4 * rows, 16]);
    assert_eq!(code, 0);
    assert_eq!(names, b"abc\0".repeat(rows));
    assert_eq!(counts[..8], 70_000u64.to_le_bytes());
    assert_eq!(counts[8..], 280_000u64.to_le_bytes());
    let (code, written, counts) = write_into(&names, &identifiers, [text.len(), 16]);
    assert_eq!((code, written), (0, text));
    assert_eq!(counts[..8], 70_000u64.to_le_bytes());
    assert_eq!(counts[8..], 490_000u64.to_le_bytes());
}
