//! What an identifier is, and which are too large.

use ring_model::sheet::{read, write};

use crate::list;

/// What a field says as the identifier of one row, quoted and not.
fn identifier(field: &[u8]) -> Result<u32, u32> {
    let said = |text: Vec<u8>| read(&text).map(|hubs| hubs[0].identifier);
    let plain = said([b"a,", field].concat());
    assert_eq!(said([b"a,\"", field, b"\"\r\n"].concat()), plain);
    plain
}

#[test]
fn limits() {
    for value in [0, 1, 9, 10, 99, 100, 2147483647, 2147483648, 4294967290] {
        assert_eq!(identifier(value.to_string().as_bytes()), Ok(value));
    }
    assert_eq!(identifier(b"4294967294"), Ok(u32::MAX - 1));
    assert_eq!(identifier(b"4294967295"), Ok(u32::MAX));
    let large: [&[u8]; 8] = [
        b"4294967296",
        b"4294967300",
        b"5000000000",
        b"9999999999",
        b"10000000000",
        b"18446744073709551615",
        b"18446744073709551616",
        b"340282366920938463463374607431768211456",
    ];
    for digits in large {
        assert_eq!(identifier(digits), Err(20), "{}", digits.escape_ascii());
        assert_eq!(identifier(&[b"000", digits].concat()), Err(20));
    }
}

/// Every power of two and of ten, and its neighbours, by its value.
#[test]
fn powers() {
    let twos = (0..64).map(|power| 1u64 << power);
    let tens = (0..19).map(|power| 10u64.pow(power));
    for middle in twos.chain(tens) {
        for value in [middle - 1, middle, middle + 1] {
            let should = u32::try_from(value).map_err(|_| 20);
            assert_eq!(identifier(value.to_string().as_bytes()), should);
        }
    }
}

#[test]
fn leading_zeros() {
    for zeros in 0..40 {
        let zeros = b"0".repeat(zeros);
        assert_eq!(identifier(&[&zeros, &b"0"[..]].concat()), Ok(0));
        assert_eq!(identifier(&[&zeros, &b"7"[..]].concat()), Ok(7));
        assert_eq!(
            identifier(&[&zeros, &b"4294967295"[..]].concat()),
            Ok(u32::MAX)
        );
        assert_eq!(identifier(&[&zeros, &b"4294967296"[..]].concat()), Err(20));
    }
}

#[test]
fn a_million_digits() {
    let zeros = b"0".repeat(1_000_000);
    assert_eq!(identifier(&zeros), Ok(0));
    assert_eq!(identifier(&[&zeros, &b"12"[..]].concat()), Ok(12));
    assert_eq!(identifier(&[&zeros, &b"4294967296"[..]].concat()), Err(20));
    assert_eq!(identifier(&b"9".repeat(1_000_000)), Err(20));
    assert_eq!(identifier(&[&b"1"[..], &zeros].concat()), Err(20));
    assert_eq!(identifier(&[&zeros, &b"x"[..]].concat()), Err(19));
}

#[test]
fn no_numbers() {
    let fields: [&[u8]; 16] = [
        b"", b" ", b" 1", b"1 ", b"+1", b"-1", b"-0", b"1.0", b"0x10", b"1e3", b"1_000", b"A",
        b"1a", b"\xB2", b"1\0", b"\0",
    ];
    for field in fields {
        assert_eq!(identifier(field), Err(19), "\"{}\"", field.escape_ascii());
    }
    for byte in (0..=255).filter(|byte: &u8| !byte.is_ascii_digit()) {
        assert_eq!(read(&[b"a,1", &[byte][..], b"1"].concat()), Err(19));
        assert_eq!(read(&[b"a,\"1", &[byte][..], b"1\""].concat()), Err(19));
    }
    for grouped in [
        &b"a,1,000"[..],
        b"a,\"1,000\"",
        b"a,\"1\r\n\"",
        b"a,\"1\"\"1\"",
    ] {
        assert_eq!(read(grouped), Err(19));
    }
}

#[test]
fn written_plainly() {
    for (identifier, row) in [
        (0, &b"a,0\r\n"[..]),
        (1, b"a,1\r\n"),
        (10, b"a,10\r\n"),
        (100_000, b"a,100000\r\n"),
        (u32::MAX - 1, b"a,4294967294\r\n"),
        (u32::MAX, b"a,4294967295\r\n"),
    ] {
        assert_eq!(write(&list(&[(b"a", identifier)])), row);
    }
    let zeros = read(b"a,\"000\"\r\nb,007").expect("it is a sheet");
    assert_eq!(write(&zeros), b"a,0\r\nb,7\r\n");
}
