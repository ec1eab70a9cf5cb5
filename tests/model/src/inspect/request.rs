//! What a line of `inspect` asks for (docs/INSPECT.md, 'Lines').

use crate::frames::{decode, Frame, MAX_DIGITS};
use crate::record::RECORD_WORDS;
use crate::tally::REFUSED;

/// So many words are kept, and may be lent: the record's, and two behind it.
pub const KEPT_WORDS: usize = RECORD_WORDS + 2;
/// The longest output of a roll call.
pub const MOST_PLACES: usize = 64;

/// What a line asks for.
#[derive(Clone, Debug, PartialEq, Eq)]
pub enum Request {
    /// A frame that founds a ring with these identifiers.
    Found(Vec<u32>),
    /// A frame with a command: operation, x and y.
    Step(u32, u32, u32),
    /// `row HUB`
    Row(u32),
    /// `roll HUB PLACES`
    Roll(u32, usize),
    /// `owner NUMBER`
    Owner(u32),
    /// `waiting`
    Waiting,
    /// `counts`
    Counts,
    /// `lend WORDS`
    Lend(usize),
    /// `word PLACE VALUE`
    Word(usize, u32),
    /// `count PLACE VALUE`
    Count(usize, u64),
    /// 'Anything else.'
    Unreadable,
}

/// Reads a line, given without its LF. 'A line of more than 514 bytes does
/// not read.'
pub fn read(line: &[u8]) -> Request {
    if line.len() > MAX_DIGITS {
        return Request::Unreadable;
    }
    match decode(line) {
        Frame::Found(identifiers) => Request::Found(identifiers),
        Frame::Command(operation, x, y) => Request::Step(operation, x, y),
        Frame::Unreadable => words_and_numbers(line).unwrap_or(Request::Unreadable),
    }
}

/// 'A word and numbers, one blank before each number.' A blank too many has a
/// part without digits beside it, which is no number.
fn words_and_numbers(line: &[u8]) -> Option<Request> {
    let mut parts = line.split(|&byte| byte == b' ');
    let word = parts.next()?;
    let numbers: Vec<u64> = parts.map(decimal).collect::<Option<_>>()?;
    match (word, numbers.as_slice()) {
        (b"row", &[hub]) => Some(Request::Row(number(hub)?)),
        (b"roll", &[hub, places]) => {
            Some(Request::Roll(number(hub)?, at_most(MOST_PLACES, places)?))
        }
        (b"owner", &[key]) => Some(Request::Owner(number(key)?)),
        (b"waiting", &[]) => Some(Request::Waiting),
        (b"counts", &[]) => Some(Request::Counts),
        (b"lend", &[words]) => Some(Request::Lend(at_most(KEPT_WORDS, words)?)),
        (b"word", &[place, value]) => Some(Request::Word(
            at_most(KEPT_WORDS - 1, place)?,
            number(value)?,
        )),
        (b"count", &[place, value]) => Some(Request::Count(at_most(REFUSED, place)?, value)),
        _ => None,
    }
}

/// 'Decimal, of one digit or more (leading zeros are taken).' What exceeds 64
/// bits is above every limit.
fn decimal(digits: &[u8]) -> Option<u64> {
    if digits.is_empty() {
        return None;
    }
    let mut value: u64 = 0;
    for &digit in digits {
        if !digit.is_ascii_digit() {
            return None;
        }
        value = value
            .checked_mul(10)?
            .checked_add(u64::from(digit - b'0'))?;
    }
    Some(value)
}

/// A number with the limit 4294967295.
fn number(value: u64) -> Option<u32> {
    u32::try_from(value).ok()
}

/// A number with a limit of its own.
fn at_most(limit: usize, value: u64) -> Option<usize> {
    usize::try_from(value).ok().filter(|&value| value <= limit)
}
