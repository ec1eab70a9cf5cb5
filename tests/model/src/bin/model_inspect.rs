//! `inspect` as the model has it: standard input to standard output.

use std::io::{self, BufReader, BufWriter};

fn main() -> io::Result<()> {
    let input = BufReader::new(io::stdin().lock());
    let output = BufWriter::new(io::stdout().lock());
    ring_model::inspect::run(input, output)
}
