//! The eight lines of `ringrun` in document 01. Document 02 (2026-01) has the
//! last one end in 0001: the message from node 0 to itself uses no link.

use ring_model::frames::answer_line;
use ring_model::ringrun::run;
use ring_model::RECORD_WORDS;

pub const INPUT: &str = "F000000064000000C8
000000000000000096
010000000100000000
030000000100000000
000000000000000096
030000000000000000
030000000000000001
030000000000000001
";

pub const OUTPUT: &str = "000000000000000000000000
010000000096000000000000
000000000000000000000000
020100000000000000000000
000000000000000000000000
000000000000000000000000
000000000000000000000000
010100000096000000010001
";

#[test]
fn line_by_line() {
    let mut words = vec![0; RECORD_WORDS];
    for (line, printed) in INPUT.lines().zip(OUTPUT.lines()) {
        assert_eq!(answer_line(line.as_bytes(), &mut words), printed);
    }
}

#[test]
fn as_a_whole_program() {
    let mut output = Vec::new();
    run(INPUT.as_bytes(), &mut output).expect("memory does not fail");
    assert_eq!(String::from_utf8(output).as_deref(), Ok(OUTPUT));
}

/// The record after the eight lines, word by word, worked out on paper.
#[test]
fn record_afterwards() {
    let mut words = vec![0; RECORD_WORDS];
    for line in INPUT.lines() {
        answer_line(line.as_bytes(), &mut words);
    }
    let mut expected = vec![0; RECORD_WORDS];
    expected[..4].copy_from_slice(&[1, 2, 1, 2]);
    expected[4..11].copy_from_slice(&[100, 2, 1, 1, 1, 0, 0]);
    expected[11..18].copy_from_slice(&[200, 2, 1, 0, 0, 0, 255]);
    expected[452..458].copy_from_slice(&[5, 1, 0, 0, 0, 0]);
    assert_eq!(words, expected);
}
