//! The calls on bytes: word order, bytes left over, short outputs.

mod common;

use common::Run;
use ring_model::bytes::{ring_fresh, ring_fresh_by, ring_owner, ring_step};
use ring_model::{step, RECORD_WORDS};

const RECORD_BYTES: usize = 4 * RECORD_WORDS;

fn bytes_of(words: &[u32]) -> Vec<u8> {
    words.iter().flat_map(|word| word.to_le_bytes()).collect()
}

/// Nodes 0 (100) and 1 (200) at rest.
fn two_at_rest() -> Vec<u8> {
    bytes_of(&Run::settled(&[100, 200]).words)
}

#[test]
fn lowest_byte_first() {
    let mut words = vec![0xAA; RECORD_BYTES];
    assert_eq!(ring_fresh(&mut words, &[0x78, 0x56, 0x34, 0x12]), 0);
    assert_eq!(
        words[..16],
        [1, 0, 0, 0, 1, 0, 0, 0, 0, 0, 0, 0, 0, 0, 0, 0]
    );
    assert_eq!(words[16..24], [0x78, 0x56, 0x34, 0x12, 2, 0, 0, 0]);
    let mut out = [0xBB; 22];
    assert_eq!(ring_step(&mut words, 0, 0, 0x0403_0201, &mut out), 0);
    assert_eq!(out[..12], [1, 0, 0, 0, 0, 0, 0, 0, 1, 2, 3, 4]);
    assert_eq!(out[12..], [0, 0, 0, 0, 0, 0, 0, 0, 0xBB, 0xBB]);
    assert_eq!(words[12..16], [1, 0, 0, 0]);
}

/// Both forms of founding on bytes: hub 1 has the smallest identifier, though
/// its lowest byte is the largest.
#[test]
fn founders() {
    let identifiers = [1, 0, 0, 2, 0xFF, 0xFF, 0, 1, 0, 0, 0, 3, 9, 9, 9];
    let row = |words: &[u8], hub: usize| words[16 + 28 * hub + 4];
    let mut smallest = vec![0xAA; RECORD_BYTES + 3];
    assert_eq!(ring_fresh(&mut smallest, &identifiers), 0);
    assert_eq!([0, 1, 2].map(|hub| row(&smallest, hub)), [0, 2, 0]);
    for founder in 0..3 {
        let mut words = vec![0xAA; RECORD_BYTES + 3];
        assert_eq!(ring_fresh_by(&mut words, &identifiers, founder), 0);
        let states = [0, 1, 2].map(|hub| row(&words, hub));
        assert_eq!(states[founder as usize], 2);
        assert_eq!(states.iter().sum::<u8>(), 2);
        assert_eq!(words == smallest, founder == 1);
        assert_eq!(words[RECORD_BYTES..], [0xAA; 3]);
    }
}

/// Left-over bytes are no hub either: 3 is not below the hub count.
#[test]
fn no_founder_on_bytes() {
    let identifiers = [1, 0, 0, 0, 2, 0, 0, 0, 3, 0, 0, 0, 4, 0, 0];
    let mut words = two_at_rest();
    let before = words.clone();
    for founder in [3, 4, 64, 255, 256, u32::MAX] {
        assert_eq!(ring_fresh_by(&mut words, &identifiers, founder), 18);
    }
    assert_eq!(ring_fresh_by(&mut words, &[1; 12], 3), 14);
    assert_eq!(ring_fresh_by(&mut words, &[1, 2, 3], 0), 13);
    assert_eq!(ring_fresh_by(&mut words, &[7; 260], 99), 13);
    assert_eq!(
        ring_fresh_by(&mut words[..RECORD_BYTES - 1], &[1; 12], 9),
        1
    );
    assert_eq!(words, before);
}

#[test]
fn owner_writes_one_word() {
    let words = two_at_rest();
    let mut out = [0xBB; 6];
    assert_eq!(ring_owner(&words, 150, &mut out), 0);
    assert_eq!(out, [1, 0, 0, 0, 0xBB, 0xBB]);
    let mut out = [0xBB; 4];
    assert_eq!(ring_owner(&words, 50, &mut out), 0);
    assert_eq!(out, [0; 4]);
}

/// Up to three bytes left over, and words past the record, stay.
#[test]
fn bytes_past_the_record_stay() {
    for extra in 0..12 {
        let mut words = two_at_rest();
        words.extend(vec![0xCC; extra]);
        let mut out = [0; 20];
        assert_eq!(ring_step(&mut words, 2, 1, 0, &mut out), 0);
        assert_eq!(words[RECORD_BYTES..], vec![0xCC; extra]);
        assert_eq!(words[8], 1);
        assert_eq!(ring_fresh(&mut words, &[1, 0, 0, 0, 2, 0]), 0);
        assert_eq!(words[RECORD_BYTES..], vec![0xCC; extra]);
        assert_eq!(words[4..8], [1, 0, 0, 0]);
    }
}

/// 1,987 words and three bytes are 1,987 words.
#[test]
fn bytes_left_over_are_no_word() {
    let mut words = two_at_rest();
    words.truncate(RECORD_BYTES - 1);
    let before = words.clone();
    let mut out = [0xBB; 20];
    assert_eq!(ring_step(&mut words, 0, 0, 0, &mut out), 1);
    assert_eq!(ring_owner(&words, 0, &mut out), 1);
    assert_eq!(ring_fresh(&mut words, &[1, 0, 0, 0]), 1);
    assert_eq!((words, out), (before, [0xBB; 20]));
    assert_eq!(ring_fresh(&mut two_at_rest(), &[1, 2, 3]), 13);
    assert_eq!(ring_fresh(&mut two_at_rest(), &[1; 8]), 14);
}

#[test]
fn refusals_write_nothing() {
    let mut words = two_at_rest();
    let before = words.clone();
    let mut out = [0xBB; 20];
    for (operation, x, y, number) in [(4, 0, 0, 3), (0, 2, 0, 4), (1, 0, 1, 6), (3, 0, 1, 9)] {
        assert_eq!(ring_step(&mut words, operation, x, y, &mut out), number);
    }
    for length in 0..20 {
        assert_eq!(ring_step(&mut words, 2, 1, 0, &mut out[..length]), 17);
    }
    for length in 0..4 {
        assert_eq!(ring_owner(&words, 150, &mut out[..length]), 17);
    }
    assert_eq!((words, out), (before, [0xBB; 20]));
}

/// The same commands on words and on bytes.
#[test]
fn bytes_and_words_agree() {
    let mut words = Run::settled(&[100, 200, 300]).words;
    let mut bytes = bytes_of(&words);
    let commands = [
        (2, 1, 9),
        (0, 0, 150),
        (3, 1, 2),
        (3, 0, 1),
        (3, 2, 1),
        (9, 0, 0),
        (3, 1, 2),
    ];
    for (operation, x, y) in commands {
        let mut out = [0; 20];
        let number = ring_step(&mut bytes, operation, x, y, &mut out);
        match step(&mut words, operation, x, y) {
            Ok(answer) => assert_eq!((number, out.to_vec()), (0, bytes_of(&answer.words()))),
            Err(refusal) => assert_eq!((number, out), (refusal, [0; 20])),
        }
        assert_eq!(bytes, bytes_of(&words));
    }
}
