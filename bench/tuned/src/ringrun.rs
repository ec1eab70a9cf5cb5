//! The program `ringrun`: blocks in, blocks out (document 01).

use std::io::{self, Read, Write};

use crate::frames::{answer_line, MOST_DIGITS};
use crate::record::RECORD_WORDS;

/// Bytes read at a time.
const BLOCK: usize = 1 << 16;

/// Answers every line of the input. The answers to all lines of a block are
/// written before the next block is read, so nobody is kept waiting.
pub fn run(mut input: impl Read, mut output: impl Write) -> io::Result<()> {
    let mut words = [0; RECORD_WORDS];
    let mut block = vec![0; BLOCK];
    let mut line = Vec::new();
    let mut printed = Vec::new();
    loop {
        let read = match input.read(&mut block) {
            Err(error) if error.kind() == io::ErrorKind::Interrupted => continue,
            other => other?,
        };
        if read == 0 {
            break;
        }
        answer_block(&block[..read], &mut line, &mut words, &mut printed);
        output.write_all(&printed)?;
        printed.clear();
    }
    // The last line may lack its LF.
    if !line.is_empty() {
        answer_line(&line, &mut words, &mut printed);
    }
    output.write_all(&printed)?;
    output.flush()
}

/// Answers the lines that end in this block, and keeps the start of the one
/// that does not. Lines that lie in it whole are not copied.
fn answer_block(block: &[u8], line: &mut Vec<u8>, words: &mut [u32], printed: &mut Vec<u8>) {
    let mut parts = block.split(|&byte| byte == b'\n').peekable();
    while let Some(part) = parts.next() {
        let ends = parts.peek().is_some();
        if ends && line.is_empty() {
            answer_line(part, words, printed);
            continue;
        }
        keep(line, part);
        if ends {
            answer_line(line, words, printed);
            line.clear();
        }
    }
}

/// One byte more than the longest frame tells that a line does not read; what
/// follows is not kept.
fn keep(line: &mut Vec<u8>, part: &[u8]) {
    let room = MOST_DIGITS + 1 - line.len();
    line.extend_from_slice(&part[..part.len().min(room)]);
}
