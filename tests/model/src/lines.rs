//! A program that answers each line of its input: what `ringrun` and
//! `inspect` have in common.

use std::io::{self, BufRead, Write};

use crate::frames::MAX_DIGITS;

/// One byte more than the longest line that reads is enough to know that a
/// line does not, so no more of a line is kept, however long it is.
const KEPT_BYTES: usize = MAX_DIGITS + 1;

/// The start of the line being read.
#[derive(Default)]
struct Line {
    kept: Vec<u8>,
}

impl Line {
    fn push(&mut self, bytes: &[u8]) {
        let room = KEPT_BYTES - self.kept.len();
        self.kept.extend_from_slice(&bytes[..bytes.len().min(room)]);
    }

    /// Answers the line and makes room for the next.
    fn finish(
        &mut self,
        answer: &mut impl FnMut(&[u8]) -> String,
        output: &mut impl Write,
    ) -> io::Result<()> {
        writeln!(output, "{}", answer(&self.kept))?;
        self.kept.clear();
        Ok(())
    }
}

/// Answers every line of the input by `answer`, which is given it without its
/// LF, and of a line that is too long the first 515 bytes. Output is flushed
/// whenever the input at hand is used up, so that a caller at the other end
/// of a pipe is not kept waiting.
pub fn run(
    mut input: impl BufRead,
    mut output: impl Write,
    mut answer: impl FnMut(&[u8]) -> String,
) -> io::Result<()> {
    let mut line = Line::default();
    loop {
        let chunk = match input.fill_buf() {
            Err(error) if error.kind() == io::ErrorKind::Interrupted => continue,
            other => other?,
        };
        if chunk.is_empty() {
            break;
        }
        let used = chunk.len();
        answer_chunk(chunk, &mut line, &mut answer, &mut output)?;
        input.consume(used);
        output.flush()?;
    }
    // 'A line ends with LF, which the last may lack.' An empty rest after the
    // last LF is no line.
    if !line.kept.is_empty() {
        line.finish(&mut answer, &mut output)?;
    }
    output.flush()
}

/// Every LF in the chunk ends a line; what follows the last one is kept.
fn answer_chunk(
    chunk: &[u8],
    line: &mut Line,
    answer: &mut impl FnMut(&[u8]) -> String,
    output: &mut impl Write,
) -> io::Result<()> {
    let mut parts = chunk.split(|&byte| byte == b'\n');
    if let Some(first) = parts.next() {
        line.push(first);
    }
    for part in parts {
        line.finish(answer, output)?;
        line.push(part);
    }
    Ok(())
}
