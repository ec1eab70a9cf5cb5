//! Frames, and the program as a process.

use std::io::Write;
use std::process::{Command, Stdio};

use ring_model::frames::{answer_line, decode, Frame};
use ring_model::ringrun::run;
use ring_model::RECORD_WORDS;

const QUIET: &str = "000000000000000000000000\n";

fn printed(input: &[u8]) -> String {
    let mut output = Vec::new();
    run(input, &mut output).expect("memory does not fail");
    String::from_utf8(output).expect("the output is text")
}

#[test]
fn frames_that_read() {
    assert_eq!(decode(b"F0"), Frame::Found(vec![]));
    assert_eq!(decode(b"F00000000A"), Frame::Found(vec![10]));
    assert_eq!(
        decode(b"F00000000AFFFFFFFF"),
        Frame::Found(vec![10, u32::MAX])
    );
    assert_eq!(
        decode(b"031234567889ABCDEF"),
        Frame::Command(3, 0x1234_5678, 0x89AB_CDEF)
    );
    assert_eq!(decode(b"FF0000000000000000"), Frame::Command(255, 0, 0));
    let mut longest = b"F0".to_vec();
    longest.extend(b"0000000A".repeat(64));
    assert_eq!(decode(&longest), Frame::Found(vec![10; 64]));
}

#[test]
fn frames_that_do_not_read() {
    let mut too_long = b"F0".to_vec();
    too_long.extend(b"0000000A".repeat(65));
    let frames: [&[u8]; 14] = [
        b"",
        b"0",
        b"F",
        b"00",
        b"0000000000",
        b"00000000000000000",
        b"0000000000000000000",
        b"00000000000000000000000000",
        b"F00000000",
        b"f000000064",
        b"00000000000000009a",
        b"000000000000000096\r",
        b" 00000000000000096",
        &too_long,
    ];
    for frame in frames {
        assert_eq!(decode(frame), Frame::Unreadable, "{frame:?}");
        let mut words = vec![0; RECORD_WORDS];
        assert_eq!(answer_line(frame, &mut words), "EEFF");
    }
    for byte in 0..=255_u8 {
        let mut frame = *b"000000000000000000";
        frame[17] = byte;
        let reads = byte.is_ascii_digit() || (b'A'..=b'F').contains(&byte);
        assert_eq!(decode(&frame) != Frame::Unreadable, reads);
    }
}

#[test]
fn refusals_print_hexadecimal() {
    assert_eq!(printed(b"000000000000000000\n"), "EE02\n");
    assert_eq!(printed(b"040000000000000000\n"), "EE02\n");
    assert_eq!(printed(b"F0\n"), "EE0D\n");
    assert_eq!(printed(b"F00000000100000001\n"), "EE0E\n");
    let founded = b"F000000064\n040000000000000000\nF0\nEF0000000000000000\n020000000000000000\n";
    assert_eq!(printed(founded), format!("{QUIET}EE03\nEE0D\nEE03\nEE08\n"));
}

/// A refused founding keeps the old ring, an accepted one replaces it.
#[test]
fn founding_again() {
    let input = b"F000000064\n00000000000000000A\nF00000000100000001\n00000000000000000A\n\
                  F0000000C8\n00000000000000000B";
    let expected = "000000000000000000000000\n01000000000A000000000000\nEE0E\n\
                    01000000000A000000010000\n000000000000000000000000\n\
                    01000000000B000000000000\n";
    assert_eq!(printed(input), expected);
}

/// A founding frame names hub 0, whichever hub has the smallest identifier.
#[test]
fn hub_0_founds() {
    let input = b"F0FFFFFFFF0000000000000064\n000000000000000000\n000000000100000000\n\
                  020000000000000000\n";
    let found = "010000000000000000000000\n";
    assert_eq!(printed(input), format!("{QUIET}{found}EE05\nEE08\n"));
}

#[test]
fn line_ends() {
    assert_eq!(printed(b""), "");
    assert_eq!(printed(b"\n"), "EEFF\n");
    assert_eq!(printed(b"\n\n"), "EEFF\nEEFF\n");
    assert_eq!(printed(b"F000000064"), QUIET);
    assert_eq!(printed(b"F000000064\n"), QUIET);
    assert_eq!(printed(b"F000000064\n\n"), format!("{QUIET}EEFF\n"));
    assert_eq!(printed(b"F000000064\r\n"), "EEFF\n");
    assert_eq!(printed(b"F000000064\0"), "EEFF\n");
}

/// A long line is one frame that does not read, and the next one reads.
#[test]
fn long_lines() {
    for length in [514, 515, 516, 8191, 8192, 8193, 1_000_000] {
        let mut input = vec![b'0'; length];
        input.extend(b"\nF000000064\n");
        assert_eq!(printed(&input), format!("EEFF\n{QUIET}"));
    }
}

/// Lines may be cut anywhere between two reads.
#[test]
fn chunks_of_any_size() {
    let input = b"F000000064000000C8\n\n000000000000000096\n010000000100000000";
    let whole = printed(input);
    for size in 1..input.len() {
        let mut output = Vec::new();
        let reader = std::io::BufReader::with_capacity(size, &input[..]);
        run(reader, &mut output).expect("memory does not fail");
        assert_eq!(output, whole.as_bytes());
    }
}

#[test]
fn as_a_process() {
    let mut child = Command::new(env!("CARGO_BIN_EXE_model_ringrun"))
        .stdin(Stdio::piped())
        .stdout(Stdio::piped())
        .spawn()
        .expect("the program starts");
    let mut input = child.stdin.take().expect("its input is open");
    input
        .write_all(b"F000000064000000C8\n000000000000000096\n")
        .expect("it reads");
    drop(input);
    let output = child.wait_with_output().expect("the program ends");
    assert!(output.status.success());
    let expected = format!("{QUIET}010000000096000000000000\n");
    assert_eq!(String::from_utf8_lossy(&output.stdout), expected);
}
