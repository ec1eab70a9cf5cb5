//! `ringrun` as the tuned model has it: standard input to standard output.

use std::io;

fn main() -> io::Result<()> {
    ring_tuned::ringrun::run(io::stdin().lock(), io::stdout().lock())
}
