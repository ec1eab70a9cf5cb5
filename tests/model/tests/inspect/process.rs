//! The program as a process, and input in pieces of any size.

use std::io::{BufReader, Write};
use std::process::{Command, Stdio};

use ring_model::inspect::run;

use super::printed;

const INPUT: &[u8] = b"F000000064000000C8\n010000000100000000\nwaiting\n\nrow 1\nroll 0 2\ncounts";

/// Lines may be cut anywhere between two reads.
#[test]
fn chunks_of_any_size() {
    let whole = printed(INPUT);
    for size in 1..INPUT.len() {
        let mut output = Vec::new();
        let reader = BufReader::with_capacity(size, INPUT);
        run(reader, &mut output).expect("memory does not fail");
        assert_eq!(output, whole.as_bytes());
    }
}

#[test]
fn as_a_process() {
    let mut child = Command::new(env!("CARGO_BIN_EXE_model_inspect"))
        .stdin(Stdio::piped())
        .stdout(Stdio::piped())
        .spawn()
        .expect("the program starts");
    let mut input = child.stdin.take().expect("its input is open");
    input.write_all(INPUT).expect("it reads");
    drop(input);
    let output = child.wait_with_output().expect("the program ends");
    assert!(output.status.success());
    assert_eq!(String::from_utf8_lossy(&output.stdout), printed(INPUT));
}
