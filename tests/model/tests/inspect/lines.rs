//! Which lines read.

use ring_model::inspect::{Inspect, UNREADABLE};

use super::{ask, last, printed};

/// A line with so many bytes, by zeros in front of its last number.
fn stretched(head: &str, number: &str, bytes: usize) -> String {
    let zeros = "0".repeat(bytes - head.len() - number.len());
    format!("{head}{zeros}{number}")
}

/// It is answered so, and nothing else has changed.
fn does_not_read(line: &[u8]) {
    let mut inspect = Inspect::default();
    ask(&mut inspect, "F000000064");
    let before = (inspect.words().to_vec(), *inspect.tally());
    let shown = String::from_utf8_lossy(line).into_owned();
    assert_eq!(inspect.answer_line(line), UNREADABLE, "{shown:?}");
    assert_eq!((inspect.words().to_vec(), *inspect.tally()), before);
    assert_eq!(inspect.lent().len(), 1988);
}

/// One below each limit, at it, and above it; far above it too.
#[test]
fn limits() {
    let cases: [(&str, u64, &str); 9] = [
        ("row ", u64::from(u32::MAX), ""),
        ("roll ", u64::from(u32::MAX), " 1"),
        ("roll 0 ", 64, ""),
        ("owner ", u64::from(u32::MAX), ""),
        ("lend ", 1990, ""),
        ("word ", 1989, " 1"),
        ("word 4 ", u64::from(u32::MAX), ""),
        ("count ", 8, " 1"),
        ("count 1 ", u64::MAX, ""),
    ];
    for (head, limit, tail) in cases {
        let line = |number: String| format!("{head}{number}{tail}");
        for number in [0, limit - 1, limit] {
            assert_ne!(last(&[&line(number.to_string())]), UNREADABLE);
        }
        let limit = u128::from(limit);
        for above in [
            limit + 1,
            limit + (1 << 32),
            limit + (1 << 64),
            10 * limit + 9,
        ] {
            does_not_read(line(above.to_string()).as_bytes());
        }
        does_not_read(line("9".repeat(100)).as_bytes());
    }
}

/// 'Leading zeros are taken', and the answer has the number.
#[test]
fn leading_zeros() {
    let founded = "F000000064";
    assert_eq!(last(&[founded, "owner 007"]), "owner of 7: hub 0");
    assert_eq!(last(&[founded, "roll 00 01"]), "roll from 0, length 1: 0");
    assert_eq!(last(&["row 00000000009"]), "row 9: none");
    assert_eq!(last(&["lend 0001990"]), "words lent: 1990");
    assert_eq!(last(&["word 00009 0001"]), "word 9: 1");
    assert_eq!(last(&["count 01 07"]), "count 1: 7");
    let most = stretched("count 1 ", "18446744073709551615", 500);
    assert_eq!(last(&[&most]), "count 1: 18446744073709551615");
    does_not_read(stretched("count 1 ", "18446744073709551616", 500).as_bytes());
}

/// 514 bytes read, 515 do not, in words as in frames.
#[test]
fn lengths() {
    for bytes in [513, 514] {
        assert_eq!(last(&[&stretched("row ", "3", bytes)]), "row 3: none");
    }
    does_not_read(stretched("row ", "3", 515).as_bytes());
    does_not_read(stretched("row ", "3", 100_000).as_bytes());
    let names: String = (0..64).map(|name| format!("{name:08X}")).collect();
    assert_eq!(last(&[&format!("F0{names}")]), "quiet");
    does_not_read(format!("F0{names}0").as_bytes());
    does_not_read(format!("F0{names}00000040").as_bytes());
}

/// Lines that stand between the bars.
fn none_reads(lines: &str) {
    lines
        .split('|')
        .for_each(|line| does_not_read(line.as_bytes()));
}

/// 'One blank before each number', and none elsewhere.
#[test]
fn blanks() {
    none_reads("| |row |row  1|row 1 | row 1|row1|row\t1|row 1\r");
    none_reads("roll 0  1|roll  0 1|roll 0 1 |roll 0\t1|waiting | waiting|counts |counts\r");
    none_reads("word 1  1|word 1 1 |count  1 1|count 1 1 |lend  1|lend 1 |owner  1|owner 1 ");
}

/// As many numbers as the line has.
#[test]
fn numbers_too_few_or_too_many() {
    none_reads("row|roll|roll 1|owner|lend|word|word 1|count|count 1");
    none_reads("row 1 2|roll 0 1 2|owner 1 1|lend 1988 1|word 1 1 1|count 1 1 1");
    none_reads("waiting 1|counts 1");
}

/// Numbers of digits, words in small letters, and no other words.
#[test]
fn no_numbers_and_no_words() {
    none_reads("row -1|row +1|row 1.0|row 1,|row 0x1|row A|row f|row \0|row one");
    none_reads("ROW 1|Row 1|ROLL 0 1|OWNER 1|WAITING|Waiting|COUNTS|LEND 1|WORD 1 1|COUNT 1 1");
    none_reads("rows 1|ro 1|waitin|waitings|count|words 1 1|step 0 0 0|fresh 1|help|quit|1|5 5");
}

/// What `ringrun` answers by EEFF.
#[test]
fn frames_that_do_not_read() {
    none_reads("0|00|F|F00|F0000000640|f000000064|F000000064 |F000000064\r|F0 00000064");
    none_reads("00000000000000000|0000000000000000000|00000000000000009g|00000000000000009a");
    none_reads("000000000000000096\r|000000000000000096 | 000000000000000096|EEFF");
}

/// A byte that is no digit, put for any byte of a line that reads.
#[test]
fn every_byte() {
    for line in ["row 1", "roll 0 2", "count 1 7"] {
        for place in 0..line.len() {
            for byte in (0..=255_u8).filter(|&byte| byte != line.as_bytes()[place]) {
                let mut other = line.as_bytes().to_vec();
                other[place] = byte;
                if byte.is_ascii_digit() && line.as_bytes()[place].is_ascii_digit() {
                    continue;
                }
                does_not_read(&other);
            }
        }
    }
}

#[test]
fn line_ends() {
    assert_eq!(printed(b""), "");
    assert_eq!(printed(b"\n"), "does not read\n");
    assert_eq!(printed(b"row 1"), "row 1: none\n");
    assert_eq!(printed(b"row 1\n"), "row 1: none\n");
    assert_eq!(printed(b"row 1\n\n"), "row 1: none\ndoes not read\n");
    assert_eq!(printed(b"row 1\r\n"), "does not read\n");
    assert_eq!(printed(b"row 1\0"), "does not read\n");
    let long = [&[b'0'; 1_000_000][..], b"\nrow 1\n"].concat();
    assert_eq!(printed(&long), "does not read\nrow 1: none\n");
}
