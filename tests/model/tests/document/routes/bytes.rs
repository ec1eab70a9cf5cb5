//! A route on bytes: word order, bytes left over, lengths.

use ring_model::bytes::ring_route;
use ring_model::{route, RECORD_WORDS};

use super::{two_at_rest, PLACE};

const RECORD_BYTES: usize = 4 * RECORD_WORDS;
const PLACE_BYTES: usize = 4 * PLACE;

fn bytes_of(words: &[u32]) -> Vec<u8> {
    words.iter().flat_map(|word| word.to_le_bytes()).collect()
}

/// Record, numbers and so many bytes for outcomes on bytes; the number
/// returned, the record after it, and the outcomes.
fn on_bytes(words: &[u8], hub: u32, numbers: &[u8], room: usize) -> (u32, Vec<u8>, Vec<u8>) {
    let (mut words, mut outcomes) = (words.to_vec(), vec![0xEE; room]);
    let code = ring_route(&mut words, hub, numbers, &mut outcomes);
    (code, words, outcomes)
}

#[test]
fn lowest_byte_first() {
    let sound = bytes_of(&two_at_rest());
    let numbers = [0x01, 0x02, 0x03, 0x04, 150, 0, 0, 0];
    let (code, words, outcomes) = on_bytes(&sound, 0, &numbers, 2 * PLACE_BYTES);
    assert_eq!(code, 0);
    let found = [0, 0, 0, 0, 1, 0, 0, 0, 0, 0, 0, 0, 1, 2, 3, 4];
    assert_eq!(outcomes[..16], found);
    assert_eq!(outcomes[16..], [0; 32]);
    assert_eq!(words[8..16], [1, 0, 0, 0, 2, 0, 0, 0]);
    // The question that waits: from 0 to 1, number 150, ticket 1.
    let message = [1, 0, 0, 0, 0, 0, 0, 0, 1, 0, 0, 0, 150, 0, 0, 0, 1];
    assert_eq!(words[4 * 452..4 * 452 + 17], message);
}

/// Bytes behind the last whole number are none.
#[test]
fn numbers_left_over() {
    let sound = bytes_of(&two_at_rest());
    let [one, two] = [&[50][..], &[50, 50]].map(bytes_of);
    for over in 0..4 {
        let mut longer = one.clone();
        longer.extend(vec![0xDD; over]);
        let expected = on_bytes(&sound, 0, &one, PLACE_BYTES);
        assert_eq!(on_bytes(&sound, 0, &longer, PLACE_BYTES), expected);
        let (code, ..) = on_bytes(&sound, 0, &two[..4 + over], PLACE_BYTES);
        assert_eq!(code, 0);
        let (code, words, outcomes) = on_bytes(&sound, 0, &two[..over], 3);
        assert_eq!((code, words, outcomes), (0, sound.clone(), vec![0xEE; 3]));
    }
    assert_eq!(on_bytes(&sound, 0, &two, PLACE_BYTES).0, 26);
    let many = vec![0; 4 * 64 + 3];
    assert_eq!(on_bytes(&sound, 0, &many, 65 * PLACE_BYTES).0, 0);
    let many = vec![0; 4 * 65];
    assert_eq!(on_bytes(&sound, 0, &many, 65 * PLACE_BYTES).0, 25);
}

/// Every length of the output around enough: 26, or written and all behind
/// left as it was.
#[test]
fn room_for_outcomes() {
    let sound = bytes_of(&two_at_rest());
    let numbers = bytes_of(&[50, 150, 100]);
    let enough = 3 * PLACE_BYTES;
    let (_, after, written) = on_bytes(&sound, 0, &numbers, enough);
    for room in 0..2 * enough {
        let (code, words, outcomes) = on_bytes(&sound, 0, &numbers, room);
        if room < enough {
            assert_eq!((code, words), (26, sound.clone()), "{room} bytes");
            assert_eq!(outcomes, vec![0xEE; room]);
            continue;
        }
        assert_eq!((code, &words), (0, &after), "{room} bytes");
        assert_eq!(outcomes[..enough], written);
        assert_eq!(outcomes[enough..], vec![0xEE; room - enough]);
    }
}

/// 1,987 words and three bytes are 1; words and bytes behind the record stay.
#[test]
fn records() {
    let sound = bytes_of(&two_at_rest());
    let numbers = bytes_of(&[50, 150]);
    let (_, after, written) = on_bytes(&sound, 0, &numbers, 2 * PLACE_BYTES);
    for over in 0..12 {
        let mut longer = sound.clone();
        longer.extend(vec![0xCC; over]);
        let (code, words, outcomes) = on_bytes(&longer, 0, &numbers, 2 * PLACE_BYTES);
        assert_eq!((code, &outcomes), (0, &written));
        assert_eq!(words[..RECORD_BYTES], after);
        assert_eq!(words[RECORD_BYTES..], vec![0xCC; over]);
    }
    for cut in [1, 2, 3, 4, 5, RECORD_BYTES] {
        let short = &sound[..RECORD_BYTES - cut];
        let refused = on_bytes(short, 0, &numbers, 2 * PLACE_BYTES);
        assert_eq!(refused, (1, short.to_vec(), vec![0xEE; 2 * PLACE_BYTES]));
    }
}

/// There is no 17: an output that is too short is 26, behind 1, 2 and 25.
#[test]
fn no_number_17() {
    let sound = bytes_of(&two_at_rest());
    let mut damaged = sound.clone();
    damaged[0] = 9;
    let (one, many) = (bytes_of(&[50]), vec![0; 4 * 65]);
    for room in [0, 1, 3, 4, 20, 23] {
        assert_eq!(on_bytes(&sound, 0, &one, room).0, 26);
        assert_eq!(on_bytes(&sound, 0, &many, room).0, 25);
        assert_eq!(on_bytes(&damaged, 0, &many, room).0, 2);
        assert_eq!(on_bytes(&[], 0, &many, room).0, 1);
    }
}

/// The same routes on words and on bytes, one after the other.
#[test]
fn bytes_and_words_agree() {
    let mut words = two_at_rest();
    let mut bytes = bytes_of(&words);
    let lists = [&[50, 150, 7][..], &[], &[300; 65], &[100, 101, 200, 201]];
    for (round, numbers) in lists.iter().cycle().take(16).enumerate() {
        let (hub, room) = (round as u32 % 4, PLACE * (4 - round % 3));
        let mut outcomes = vec![0xEEEE_EEEE; room];
        let should = route(&mut words, hub, numbers, &mut outcomes);
        let (code, after, written) = on_bytes(&bytes, hub, &bytes_of(numbers), 4 * room);
        assert_eq!(code, should.err().unwrap_or(0));
        assert_eq!((&after, written), (&bytes_of(&words), bytes_of(&outcomes)));
        bytes = after;
    }
}
