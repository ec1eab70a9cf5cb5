//! Which refusal comes first where several would do, and that a refused call
//! writes nothing.

use crate::{outputs, read_into, write_into, BEFORE};

/// No sheet, though its first row has too large an identifier, and its last.
const NONE: &[u8] = b"ab,4294967296\r\nc\r\nd,99999999999";
/// A sheet whose last identifier is too large; it needs 8 and 5 bytes.
const LARGE: &[u8] = b"ab,1\r\nc,4294967296";
/// A sheet that needs as much.
const SOUND: &[u8] = b"ab,1\r\nc,2";

/// Outputs with room, and with room for nothing.
const ROOM: [usize; 2] = [8, 5];
const NO_ROOM: [[usize; 2]; 4] = [[7, 5], [8, 4], [0, 0], [3, 5]];

fn refuses(text: &[u8], [identifiers, names]: [usize; 2], counts: usize, number: u32) {
    let lengths = [identifiers, names, counts];
    let (code, after) = read_into(text, lengths);
    assert_eq!(code, number, "\"{}\" into {lengths:?}", text.escape_ascii());
    assert_eq!(after, outputs(lengths));
}

#[test]
fn counts_are_asked_first() {
    for counts in 0..16 {
        for text in [NONE, LARGE, SOUND, b""] {
            refuses(text, ROOM, counts, 17);
            NO_ROOM
                .iter()
                .for_each(|&short| refuses(text, short, counts, 17));
        }
    }
    assert_eq!(read_into(SOUND, [8, 5, 16]).0, 0);
    assert_eq!(read_into(SOUND, [8, 5, 17]).0, 0);
}

#[test]
fn sheet_before_identifiers_before_room() {
    refuses(NONE, ROOM, 16, 19);
    refuses(LARGE, ROOM, 16, 20);
    for short in NO_ROOM {
        refuses(NONE, short, 16, 19);
        refuses(LARGE, short, 16, 20);
        refuses(SOUND, short, 16, 21);
    }
}

/// Wherever the fault is, the whole text is judged before an identifier, and
/// all identifiers before the room.
#[test]
fn the_whole_text_is_judged() {
    let sound = "a,1\r\n".repeat(3);
    let (large, none) = ("a,4294967296\r\n", "a,1\n\r\n");
    for rows in 0..=3 {
        let (before, behind) = sound.split_at(5 * rows);
        let text = [before, large, behind].concat();
        refuses(text.as_bytes(), [16, 8], 16, 20);
        refuses(text.as_bytes(), [0, 0], 16, 20);
        for text in [
            [before, large, none, behind].concat(),
            [before, none, large, behind].concat(),
            [before, large, behind, none].concat(),
            [none, before, behind, large].concat(),
        ] {
            refuses(text.as_bytes(), [20, 10], 16, 19);
            refuses(text.as_bytes(), [0, 0], 16, 19);
        }
    }
}

/// Names that are not one for each identifier, and names that are.
const UNEVEN: [(&[u8], usize); 9] = [
    (b"a\0", 0),
    (b"", 1),
    (b"a", 1),
    (b"a\0b", 1),
    (b"a\0b", 2),
    (b"a\0\0", 1),
    (b"\0a\0", 1),
    (b"a\0b\0", 1),
    (b"a\0b\0", 3),
];
const EVEN: [(&[u8], usize); 3] = [(b"a\0", 1), (b"\0", 1), (b"a\0\"\0", 2)];

fn refuses_to_write((names, hubs): (&[u8], usize), lengths: [usize; 2], number: u32) {
    let (code, text, counts) = write_into(names, &vec![1; 4 * hubs], lengths);
    assert_eq!(code, number, "{names:?} for {hubs} into {lengths:?}");
    assert_eq!(
        (text, counts),
        (vec![BEFORE; lengths[0]], vec![BEFORE; lengths[1]])
    );
}

#[test]
fn writing_asks_counts_then_names_then_room() {
    for uneven in UNEVEN {
        for room in [0, 1, 100] {
            (0..16).for_each(|counts| refuses_to_write(uneven, [room, counts], 17));
            refuses_to_write(uneven, [room, 16], 19);
        }
    }
    for even in EVEN {
        for room in [0, 1, 100] {
            (0..16).for_each(|counts| refuses_to_write(even, [room, counts], 17));
        }
        refuses_to_write(even, [0, 16], 21);
        refuses_to_write(even, [1, 16], 21);
    }
    (0..16).for_each(|counts| refuses_to_write((b"", 0), [0, counts], 17));
}
