//! Frames of `ringrun`: one line in, one line out (document 01).

use crate::record::MOST_HUBS;
use crate::{fresh_by, step, Answer, Fields};

/// The longest frame that reads: `F0` and 64 identifiers of 8 digits.
pub const MOST_DIGITS: usize = 514;

const NO_DIGIT: u8 = 0xFF;

/// What each byte is worth as a digit: a table needs no branch.
static WORTH: [u8; 256] = worth();

const fn worth() -> [u8; 256] {
    let digits = *b"0123456789ABCDEF";
    let mut table = [NO_DIGIT; 256];
    let mut value = 0;
    while value < 16 {
        table[digits[value] as usize] = value as u8;
        value += 1;
    }
    table
}

/// Acts on one line, given without its LF; adds the line printed, with LF.
pub fn answer_line(line: &[u8], words: &mut [u32], output: &mut Vec<u8>) {
    match outcome(line, words) {
        None => output.extend_from_slice(b"EEFF\n"),
        Some(Err(number)) => {
            output.extend_from_slice(b"EE");
            put_hexadecimal(output, number, 2);
            output.push(b'\n');
        }
        Some(Ok(answer)) => put_answer(output, answer),
    }
}

/// What the line's call gives, or nothing for a line that does not read.
fn outcome(line: &[u8], words: &mut [u32]) -> Option<Result<Answer, u32>> {
    if line.len() > MOST_DIGITS || line.len() % 8 != 2 {
        return None;
    }
    let (head, rest) = line.split_at(2);
    let mut numbers = [0; MOST_HUBS];
    for (number, digits) in numbers.iter_mut().zip(rest.chunks_exact(8)) {
        *number = hexadecimal(digits)?;
    }
    match (hexadecimal(head)?, rest.len()) {
        // A frame founds by hub 0, wherever the smallest identifier stands.
        (0xF0, digits) => {
            Some(fresh_by(words, &numbers[..digits / 8], 0).map(|()| Answer::default()))
        }
        (operation, 16) => Some(step::<Fields, _>(words, operation, numbers[0], numbers[1])),
        _ => None,
    }
}

/// Up to eight digits as a number; nothing if one is no digit.
fn hexadecimal(digits: &[u8]) -> Option<u32> {
    let (mut value, mut merged) = (0, 0);
    for &digit in digits {
        let worth = WORTH[digit as usize];
        merged |= worth;
        value = value << 4 | u32::from(worth & 15);
    }
    (merged != NO_DIGIT).then_some(value)
}

fn put_answer(output: &mut Vec<u8>, answer: Answer) {
    put_hexadecimal(output, answer.kind, 2);
    put_hexadecimal(output, answer.hub, 2);
    put_hexadecimal(output, answer.number, 8);
    put_hexadecimal(output, answer.ticket, 8);
    put_hexadecimal(output, answer.hops, 4);
    output.push(b'\n');
}

/// The lowest digits of a number.
fn put_hexadecimal(output: &mut Vec<u8>, number: u32, digits: usize) {
    let mut text = [0; 8];
    for (place, digit) in text[..digits].iter_mut().rev().enumerate() {
        *digit = b"0123456789ABCDEF"[(number >> (4 * place)) as usize & 15];
    }
    output.extend_from_slice(&text[..digits]);
}
