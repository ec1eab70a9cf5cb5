//! Frames of `ringrun`: one line in, one line out (document 01, '`ringrun`').

use crate::answer::Answer;
use crate::step::{fresh_by, step};

/// `F0` and 64 identifiers of 8 digits: the longest frame that reads.
pub const MAX_DIGITS: usize = 514;

/// The hub that a founding frame names. The frame has no place for a founder,
/// and who writes frames relies on the first hub (document 02, 2026-02).
pub const FOUNDER: u32 = 0;

/// What a frame that does not read prints.
pub const UNREADABLE: &str = "EEFF";

/// What a line says.
#[derive(Clone, Debug, PartialEq, Eq)]
pub enum Frame {
    /// `F0` and identifiers.
    Found(Vec<u32>),
    /// Operation, x and y.
    Command(u32, u32, u32),
    /// A frame that does not read.
    Unreadable,
}

/// Reads a line, given without its LF.
pub fn decode(line: &[u8]) -> Frame {
    if line.len() > MAX_DIGITS || line.len() < 2 {
        return Frame::Unreadable;
    }
    let (head, rest) = line.split_at(2);
    if rest.len() % 8 != 0 {
        return Frame::Unreadable;
    }
    let numbers: Option<Vec<u32>> = rest.chunks(8).map(hexadecimal).collect();
    let (Some(operation), Some(numbers)) = (hexadecimal(head), numbers) else {
        return Frame::Unreadable;
    };
    match (operation, numbers.as_slice()) {
        (0xF0, identifiers) => Frame::Found(identifiers.to_vec()),
        (_, &[x, y]) => Frame::Command(operation, x, y),
        _ => Frame::Unreadable,
    }
}

/// At most eight upper-case digits as a number; nothing if one is no digit.
fn hexadecimal(digits: &[u8]) -> Option<u32> {
    let mut value = 0;
    for &digit in digits {
        let worth = match digit {
            b'0'..=b'9' => digit - b'0',
            b'A'..=b'F' => digit - b'A' + 10,
            _ => return None,
        };
        value = value * 16 + u32::from(worth);
    }
    Some(value)
}

/// The line that is printed for an outcome.
fn encode(outcome: Result<Answer, u32>) -> String {
    match outcome {
        Ok(answer) => format!(
            "{:02X}{:02X}{:08X}{:08X}{:04X}",
            answer.kind, answer.hub, answer.number, answer.ticket, answer.hops
        ),
        Err(number) => format!("EE{number:02X}"),
    }
}

/// Acts on one line, given without its LF, and returns the printed line,
/// also without LF. 'Founding prints quiet.'
pub fn answer_line(line: &[u8], words: &mut [u32]) -> String {
    match decode(line) {
        Frame::Found(identifiers) => {
            encode(fresh_by(words, &identifiers, FOUNDER).map(|()| Answer::quiet()))
        }
        Frame::Command(operation, x, y) => encode(step(words, operation, x, y)),
        Frame::Unreadable => UNREADABLE.to_string(),
    }
}
