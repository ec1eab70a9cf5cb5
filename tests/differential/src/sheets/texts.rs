//! Texts to read: sheets with names and identifiers of every kind, the same damaged, and random
//! bytes that are almost sheets.

use ring_model::generator::Generator;
use ring_model::sheet::{must_be_quoted, quoted};

use crate::sheets::damage::damage;

/// How a text was made.
#[derive(Clone, Copy, Debug)]
pub enum Making {
    /// By the rules of a sheet.
    Whole,
    /// By the rules, then changed.
    Damaged,
    /// From bytes that have a meaning in sheets.
    Random,
}

/// Bytes of names: those that must be quoted more often, and some that need not be although they
/// look like it.
const OF_NAMES: &[u8] = b"\"\"\"\"\",,,\r\r\r\n\n\n  \t;'a09\\\x01\x7F\x80\xEF\xBB\xBF\xFF";
/// From so many rows, or bytes of a name or digits, on, a text is long: two bytes just hold it.
pub const LONG: usize = 65_530;
/// One long text in so many.
const SELDOM: u32 = 5_000;

/// A text of any making.
pub fn some_text(generator: &mut Generator) -> (Making, Vec<u8>) {
    match generator.below(10) {
        0..=2 => (Making::Whole, whole(generator)),
        3..=5 => {
            let mut text = whole(generator);
            (0..=generator.below(3)).for_each(|_| damage(generator, &mut text));
            (Making::Damaged, text)
        }
        _ => (Making::Random, random(generator)),
    }
}

/// A sheet, but for identifiers that may be too large.
pub fn whole(generator: &mut Generator) -> Vec<u8> {
    let rows = match generator.below(100) {
        0 => generator.below(80),
        1 => 0,
        _ => 1 + generator.below(4),
    };
    let mut text = Vec::new();
    for _ in 0..rows {
        row(generator, &mut text);
    }
    if generator.below(SELDOM) == 0 {
        long(generator, &mut text);
    }
    if generator.chance(30) {
        text.truncate(text.len().saturating_sub(2));
    }
    text
}

/// A row behind the others.
fn row(generator: &mut Generator, text: &mut Vec<u8>) {
    let name = name(generator);
    put_field(generator, text, &name);
    text.push(b',');
    let digits = digits(generator);
    put_field(generator, text, &digits);
    text.extend_from_slice(b"\r\n");
}

/// A field, quoted where it must be and sometimes where it need not be.
fn put_field(generator: &mut Generator, text: &mut Vec<u8>, field: &[u8]) {
    match must_be_quoted(field) || generator.chance(25) {
        true => text.extend_from_slice(&quoted(field)),
        false => text.extend_from_slice(field),
    }
}

/// A name without its quotes, and without a zero byte.
pub fn name(generator: &mut Generator) -> Vec<u8> {
    let length = generator.below(7);
    let any = generator.chance(10);
    let byte = |_| match any {
        true => 1 + generator.below(255) as u8,
        false => one_of(generator, OF_NAMES),
    };
    (0..length).map(byte).collect()
}

/// Decimal digits of an identifier, seldom of one that is too large.
fn digits(generator: &mut Generator) -> Vec<u8> {
    let zeros = match generator.below(12) {
        0 => 1 + generator.below(3),
        1 => generator.below(40),
        _ => 0,
    };
    let mut digits = vec![b'0'; zeros as usize];
    match generator.below(64) {
        0 => digits.extend((0..10 + generator.below(16)).map(|_| one_of(generator, b"0123456789"))),
        1 => {
            digits.extend((u64::from(u32::MAX) + u64::from(generator.below(9))).to_string().bytes())
        }
        _ => digits.extend(identifier(generator).to_string().bytes()),
    }
    digits
}

/// An identifier with any number of digits, or at the limits.
pub fn identifier(generator: &mut Generator) -> u32 {
    match generator.below(8) {
        0 => generator.below(3),
        1 => u32::MAX - generator.below(3),
        2 => 10_u32.pow(generator.below(10)) - generator.below(2),
        _ => generator.next_u32() >> generator.below(32),
    }
}

/// A row more with a name or an identifier that is long, or many rows.
fn long(generator: &mut Generator, text: &mut Vec<u8>) {
    let length = [250, LONG][generator.below(2) as usize] + generator.below(12) as usize;
    match generator.below(3) {
        0 => text.extend(quoted(&[one_of(generator, OF_NAMES)].repeat(length))),
        1 => {
            text.extend_from_slice(b"a,");
            text.resize(text.len() + length, b'0');
            text.extend_from_slice(b"7\r\n");
            return;
        }
        _ => text.extend(b",8\r\n".repeat(length)),
    }
    text.extend_from_slice(b",9\r\n");
}

/// Up to 24 bytes, or as many pieces, of which few are no sheet by far.
fn random(generator: &mut Generator) -> Vec<u8> {
    const PIECES: [&[u8]; 12] =
        [b"a", b"\"", b",", b"\r", b"\n", b"0", b"9", b"\0", b"\r\n", b",0", b"\"\"", b",9\r\n"];
    let (pieces, most) = match generator.below(2) {
        0 => (&PIECES[..8], 25),
        _ => (&PIECES[..], 12),
    };
    let mut text = Vec::new();
    for _ in 0..generator.below(most) {
        text.extend_from_slice(pieces[generator.below(pieces.len() as u32) as usize]);
    }
    text
}

/// One of these bytes.
pub fn one_of(generator: &mut Generator, bytes: &[u8]) -> u8 {
    bytes[generator.below(bytes.len() as u32) as usize]
}
