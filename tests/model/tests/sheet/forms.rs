//! Each form of field and row that is a sheet, and each that is none.

use ring_model::sheet::read;

use crate::list;

/// The hubs of a text that is a sheet.
fn says(text: &[u8], hubs: &[(&[u8], u32)]) {
    assert_eq!(read(text), Ok(list(hubs)), "\"{}\"", text.escape_ascii());
}

/// Texts that are no sheets, alone, behind a sound row and in front of one.
fn refuses(texts: &[&[u8]]) {
    for text in texts {
        for whole in [
            text.to_vec(),
            [b"a,1\r\n", *text].concat(),
            [text, &b"\r\na,1\r\n"[..]].concat(),
        ] {
            assert_eq!(read(&whole), Err(19), "\"{}\"", whole.escape_ascii());
        }
    }
}

#[test]
fn rows_end_in_cr_lf() {
    says(b"", &[]);
    says(b"a,1\r\n", &[(b"a", 1)]);
    says(b"a,1", &[(b"a", 1)]);
    says(b"a,1\r\nb,2\r\n", &[(b"a", 1), (b"b", 2)]);
    says(b"a,1\r\nb,2", &[(b"a", 1), (b"b", 2)]);
    says(b"\"a\",\"1\"", &[(b"a", 1)]);
    says(b"\"a\",\"1\"\r\n", &[(b"a", 1)]);
}

#[test]
fn empty_names() {
    says(b",0", &[(b"", 0)]);
    says(b"\"\",0\r\n,1\r\n", &[(b"", 0), (b"", 1)]);
    says(b",\"5\"\r\n\"\",\"6\"", &[(b"", 5), (b"", 6)]);
}

#[test]
fn quotes_are_doubled() {
    says(b"\"\"\"\",1", &[(b"\"", 1)]);
    says(b"\"\"\"\"\"\",1", &[(b"\"\"", 1)]);
    says(b"\"say \"\"hi\"\"\",1", &[(b"say \"hi\"", 1)]);
    says(b"\"\"\"a\",1", &[(b"\"a", 1)]);
    says(b"\"a\"\"\",1", &[(b"a\"", 1)]);
    says(b"\"\"\",\"\"\",1", &[(b"\",\"", 1)]);
}

#[test]
fn everything_else_between_quotes_is_itself() {
    says(b"\",\",1", &[(b",", 1)]);
    says(b"\"\r\n\",1\r\n", &[(b"\r\n", 1)]);
    says(b"\"\r\",1", &[(b"\r", 1)]);
    says(b"\"\n\",1", &[(b"\n", 1)]);
    says(b"\"a,1\r\nb\",2", &[(b"a,1\r\nb", 2)]);
    says(b"\" a \",1", &[(b" a ", 1)]);
}

/// Every byte but a zero byte is part of a name: four of them between quotes
/// alone.
#[test]
fn every_byte_in_a_name() {
    for byte in 1..=255 {
        let doubled = [byte, byte];
        let inside = if byte == b'"' { &doubled[..] } else { &[byte] };
        says(&[b"\"", inside, b"\",7"].concat(), &[(&[byte], 7)]);
        match byte {
            b'"' | b',' | b'\r' | b'\n' => refuses(&[&[byte, b',', b'7']]),
            _ => says(&[byte, b',', b'7'], &[(&[byte], 7)]),
        }
    }
    refuses(&[
        b"\0,7",
        b"a\0b,7",
        b"\"\0\",7",
        b"\"a\0\",7",
        b"\"\"\"\0\",7",
    ]);
}

/// Blanks and a byte order mark belong to the name, and the first row is no
/// header.
#[test]
fn nothing_is_left_out() {
    says(b" a ,1", &[(b" a ", 1)]);
    says(b"\t,1", &[(b"\t", 1)]);
    says(b"\xEF\xBB\xBFa,1", &[(b"\xEF\xBB\xBFa", 1)]);
    says(b"name,0\r\na,1", &[(b"name", 0), (b"a", 1)]);
    refuses(&[b"name,identifier", b"\xEF\xBB\xBF\"a\",1", b" \"a\",1"]);
}

#[test]
fn equal_rows() {
    says(b"a,1\r\na,1\r\n", &[(b"a", 1), (b"a", 1)]);
    says(b"a,1\r\nb,1", &[(b"a", 1), (b"b", 1)]);
}

#[test]
fn more_than_one_ring_takes() {
    let text = b"a,1\r\n".repeat(1000);
    let hubs: [(&[u8], u32); 1000] = [(b"a", 1); 1000];
    says(&text, &hubs);
}

#[test]
fn not_two_fields() {
    refuses(&[b"a", b"1", b"\"a\"", b"\"a,1\"", b"a,1,", b"a,1,2", b"a,,1"]);
    refuses(&[b"a,1,\"\"", b"a,\"1\",2", b",", b",,", b"\"\"", b",\"\""]);
}

/// An empty line is no row; behind the last row's end there is no line.
#[test]
fn empty_lines() {
    for text in [&b"\r\n"[..], b"\r\n\r\n", b"a,1\r\n\r\n", b"\r\na,1"] {
        assert_eq!(read(text), Err(19), "\"{}\"", text.escape_ascii());
    }
    assert_eq!(read(b"a,1\r\n\r\nb,2"), Err(19));
}

#[test]
fn other_ends_of_rows() {
    refuses(&[
        b"a,1\r", b"a,1\n", b"a,1\n\r", b"a,1\r\r", b"\r", b"\n", b"\n\r",
    ]);
    refuses(&[
        b"a,1\rb,2",
        b"a,1\nb,2",
        b"a,1\n\rb,2",
        b"a\r\n,1",
        b"a,\r\n1",
    ]);
    refuses(&[
        b"a\r,1",
        b"a\n,1",
        b"a,\r1",
        b"a,\n1",
        b"a,1\0",
        b"a,\"1\"\n",
    ]);
}

#[test]
fn quotes_out_of_place() {
    refuses(&[
        b"a\",1",
        b"a\"b,1",
        b"a\"\"b,1",
        b"\"a\"b,1",
        b"\"a\" ,1",
        b"\"a\"\r\n,1",
    ]);
    refuses(&[
        b"a,1\"",
        b"a,\"1\"2",
        b"a,\"1\" ",
        b"a, \"1\"",
        b"a,1\"\"",
        b"a,\"1\"\"\"",
    ]);
}

/// A quote that is never closed takes in all that follows.
#[test]
fn open_quotes() {
    for text in [
        &b"\""[..],
        b"\"a",
        b"\"a,1\r\n",
        b"\"\"\"",
        b"\"a\"\",1\r\n",
        b"a,\"1",
    ] {
        assert_eq!(read(text), Err(19), "\"{}\"", text.escape_ascii());
        let behind = [b"a,1\r\n", text].concat();
        assert_eq!(read(&behind), Err(19));
    }
    assert_eq!(read(b"a,\"1\r\n"), Err(19));
}

/// A sheet that is cut off is one only where a row may end.
#[test]
fn cut_anywhere() {
    let text = b"\"a\"\"\r\n\",12\r\n,\"3\"\r\nb,4\r\n";
    let whole = [9, 10, 12, 16, 18, 21, 23];
    let sheets = (1..=text.len()).filter(|&cut| read(&text[..cut]).is_ok());
    assert_eq!(sheets.collect::<Vec<usize>>(), whole);
}
