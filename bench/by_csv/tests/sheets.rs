//! Small sheets, by hand: what is read and written, and which faults are told.

use ring_by_csv::{read, write};

/// A list, and its sheet as it is written.
const NAMES: &[u8] = b"Hub \"A\", north\0\0two\r\nlines\0plain\0";
const IDENTIFIERS: [u8; 16] = [
    0x00, 0x00, 0x00, 0x00, 0xFF, 0xFF, 0xFF, 0xFF, 0x0A, 0x00, 0x00, 0x00, 0x00, 0x01, 0x00, 0x00,
];
const TEXT: &[u8] =
    b"\"Hub \"\"A\"\", north\",0\r\n,4294967295\r\n\"two\r\nlines\",10\r\nplain,256\r\n";

fn counts(rows: u64, bytes: usize) -> [u8; 16] {
    let mut counts = [0; 16];
    counts[..8].copy_from_slice(&rows.to_le_bytes());
    counts[8..].copy_from_slice(&(bytes as u64).to_le_bytes());
    counts
}

/// What reading returns with so much room.
fn read_into(text: &[u8], rows: usize, bytes: usize) -> u32 {
    read(
        text,
        &mut vec![0; 4 * rows],
        &mut vec![0; bytes],
        &mut [0; 16],
    )
}

#[test]
fn a_sheet_is_read() {
    for text in [TEXT, TEXT.strip_suffix(b"\r\n").unwrap()] {
        let (mut identifiers, mut names, mut told) = ([7; 19], [7; NAMES.len() + 1], [7; 16]);
        assert_eq!(read(text, &mut identifiers, &mut names, &mut told), 0);
        assert_eq!(identifiers, [&IDENTIFIERS[..], &[7; 3]].concat()[..]);
        assert_eq!(names, [NAMES, &[7]].concat()[..]);
        assert_eq!(told, counts(4, NAMES.len()));
    }
}

#[test]
fn a_sheet_is_written() {
    let (mut text, mut told) = ([7; TEXT.len() + 1], [7; 16]);
    assert_eq!(write(NAMES, &IDENTIFIERS, &mut text, &mut told), 0);
    assert_eq!(text, [TEXT, &[7]].concat()[..]);
    assert_eq!(told, counts(4, TEXT.len()));
}

#[test]
fn an_empty_sheet_is_an_empty_list() {
    let (mut read_told, mut write_told) = ([7; 16], [7; 16]);
    assert_eq!(read(b"", &mut [], &mut [], &mut read_told), 0);
    assert_eq!(write(b"", &[], &mut [], &mut write_told), 0);
    assert_eq!((read_told, write_told), (counts(0, 0), counts(0, 0)));
}

#[test]
fn faults_of_a_sheet_are_told() {
    let no_sheets: [&[u8]; 6] = [b"a", b"a,1,2", b"a,", b"a,-1", b"a, 1", b"a,1x"];
    for text in no_sheets {
        assert_eq!(read_into(text, 1, 9), 19);
    }
    assert_eq!(read_into(b"a,4294967295", 1, 2), 0);
    assert_eq!(read_into(b"a,4294967296", 1, 2), 20);
    assert_eq!(read_into(b"a,00000000001", 1, 2), 0);
    assert_eq!(read_into(b"a,1\r\nb,2\r\n", 1, 9), 21);
    assert_eq!(read_into(b"a,1\r\nb,2\r\n", 2, 3), 21);
    assert_eq!(read_into(b"a,1\r\nb,2\r\n", 2, 4), 0);
}

#[test]
fn faults_of_a_list_are_told() {
    let returned = |names, room| write(names, &[1, 0, 0, 0], &mut vec![0; room], &mut [0; 16]);
    assert_eq!(returned(b"a\0", 5), 0);
    assert_eq!(returned(b"a\0", 4), 21);
    assert_eq!(returned(b"a", 5), 19);
    assert_eq!(returned(b"", 5), 19);
    assert_eq!(returned(b"a\0b\0", 9), 19);
}
