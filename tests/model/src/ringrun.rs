//! The whole program `ringrun`: frames in, lines out (document 01,
//! '`ringrun`').

use std::io::{self, BufRead, Write};

use crate::frames::answer_line;
use crate::lines;
use crate::record::RECORD_WORDS;

/// Answers every line of the input. 'Before any founding the record is all
/// 0.'
pub fn run(input: impl BufRead, output: impl Write) -> io::Result<()> {
    let mut words = vec![0; RECORD_WORDS];
    lines::run(input, output, |line| answer_line(line, &mut words))
}
