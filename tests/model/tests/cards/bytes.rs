//! The four calls on bytes: word order, bytes left over, lengths, outputs.

use ring_model::bytes::{ring_fresh_by_cards, ring_fresh_cards, ring_offer, ring_step_cards};
use ring_model::cards::{offer, step_cards};
use ring_model::RECORD_WORDS;

use crate::{many, slice, three, Both, SLICE, THREE};

const RECORD_BYTES: usize = 4 * RECORD_WORDS;
const SLICE_BYTES: usize = 4 * SLICE;
const ALL: [u32; 3] = [0, 1, 2];

fn bytes_of(words: &[u32]) -> Vec<u8> {
    words.iter().flat_map(|word| word.to_le_bytes()).collect()
}

/// Three hubs at rest and some cards.
fn sound() -> [Vec<u8>; 2] {
    let cards = slice(&ALL, &many(&THREE, &ALL, 40));
    [bytes_of(&three()), bytes_of(&cards)]
}

#[test]
fn lowest_byte_first() {
    let identifiers = [4, 3, 2, 1, 9, 0, 0, 0, 7, 7];
    let (mut words, mut cards) = (vec![0xAA; RECORD_BYTES], vec![0xBB; SLICE_BYTES]);
    assert_eq!(ring_fresh_cards(&mut words, &mut cards, &identifiers), 0);
    let mut should = vec![0; SLICE_BYTES];
    should[8] = 1;
    assert_eq!(cards, should);
    assert_eq!(
        ring_offer(&words, &mut cards, 0x0403_0201, 0x0807_0605, 9),
        0
    );
    assert_eq!(cards[..4], [1, 0, 0, 0]);
    let card = &cards[260..276];
    assert_eq!(card, [1, 2, 3, 4, 5, 6, 7, 8, 9, 0, 0, 0, 1, 0, 0, 0]);
    assert_eq!(cards[276..], should[276..]);
}

/// Two bytes left over are no third hub.
#[test]
fn founders() {
    let identifiers = [4, 3, 2, 1, 9, 0, 0, 0, 7, 7];
    for founder in 0..4 {
        let (mut words, mut cards) = (vec![0xAA; RECORD_BYTES + 2], vec![0xBB; SLICE_BYTES + 3]);
        let before = (words.clone(), cards.clone());
        let code = ring_fresh_by_cards(&mut words, &mut cards, &identifiers, founder);
        if founder > 1 {
            assert_eq!((code, words, cards), (18, before.0, before.1));
            continue;
        }
        assert_eq!(code, 0);
        assert_eq!(words[RECORD_BYTES..], [0xAA; 2]);
        assert_eq!(cards[SLICE_BYTES..], [0xBB; 3]);
        let marks = [cards[4], cards[8]];
        assert_eq!(marks, [u8::from(founder == 0), u8::from(founder == 1)]);
    }
}

/// Every length of both around enough: 1 or accepted, and what lies behind
/// stays.
#[test]
fn lengths() {
    let [sound_words, sound_cards] = sound();
    for (over, cut) in (0..=9).map(|i| (i, 0)).chain((1..=9).map(|i| (0, i))) {
        let longer = |bytes: &[u8]| -> Vec<u8> {
            let mut bytes = bytes[..bytes.len() - cut].to_vec();
            bytes.extend(vec![0xCC; over]);
            bytes
        };
        let (words, cards) = (longer(&sound_words), longer(&sound_cards));
        for (words, cards) in [
            (&words, &sound_cards),
            (&sound_words, &cards),
            (&words, &cards),
        ] {
            both_calls(words, cards, if cut > 0 { 1 } else { 0 });
        }
    }
}

/// A step and an offer on copies of these bytes return this number, and leave
/// everything behind the slices, or everything.
fn both_calls(words: &[u8], cards: &[u8], number: u32) {
    let (mut stepped, mut dealt, mut out) = (words.to_vec(), cards.to_vec(), [0xEE; 23]);
    let code = ring_step_cards(&mut stepped, &mut dealt, 0, 0, 7, &mut out);
    assert_eq!(code, number);
    assert_eq!(out[20..], [0xEE; 3]);
    let mut offered = cards.to_vec();
    assert_eq!(ring_offer(words, &mut offered, 6, 1, 1), number);
    if number == 0 {
        assert_eq!(stepped[RECORD_BYTES..], words[RECORD_BYTES..]);
        assert_eq!(out[..12], [1, 0, 0, 0, 0, 0, 0, 0, 7, 0, 0, 0]);
        assert_eq!(dealt, cards);
        assert_eq!(offered[SLICE_BYTES..], cards[SLICE_BYTES..]);
        assert_eq!(offered[0], 41);
        return;
    }
    assert_eq!((&stepped[..], &dealt[..]), (words, cards));
    assert_eq!((out, &offered[..]), ([0xEE; 23], cards));
}

/// An output below 20 bytes is 17, before everything else.
#[test]
fn short_outputs() {
    let [words, cards] = sound();
    let short = |bytes: &[u8]| bytes[..bytes.len() - 1].to_vec();
    let damaged = |bytes: &[u8]| vec![0xFF; bytes.len()];
    for length in 0..20 {
        for words in [words.clone(), short(&words), damaged(&words), vec![]] {
            for cards in [cards.clone(), short(&cards), damaged(&cards), vec![]] {
                let (mut stepped, mut dealt) = (words.clone(), cards.clone());
                let mut out = vec![0xEE; length];
                let code = ring_step_cards(&mut stepped, &mut dealt, 9, 0, 0, &mut out);
                assert_eq!((code, stepped, dealt), (17, words.clone(), cards));
                assert_eq!(out, vec![0xEE; length]);
            }
        }
    }
}

/// Refused calls leave every byte of both, and of the output.
#[test]
fn refusals_write_nothing() {
    let [mut words, mut cards] = sound();
    let before = (words.clone(), cards.clone());
    let mut out = [0xEE; 20];
    for (operation, x, y, number) in [(4, 0, 0, 3), (0, 3, 0, 4), (1, 0, 1, 6), (3, 0, 1, 9)] {
        let code = ring_step_cards(&mut words, &mut cards, operation, x, y, &mut out);
        assert_eq!(code, number);
    }
    assert_eq!(ring_offer(&words, &mut cards, 7, 4, 100), 22);
    assert_eq!(ring_offer(&words, &mut cards, 7, 5, 101), 23);
    for (identifiers, number) in [(&[][..], 13), (&[1; 8], 14), (&[7; 260], 13)] {
        let code = ring_fresh_cards(&mut words, &mut cards, identifiers);
        assert_eq!(code, number);
        let code = ring_fresh_by_cards(&mut words, &mut cards, identifiers, 0);
        assert_eq!(code, number);
    }
    assert_eq!((words, cards, out), (before.0, before.1, [0xEE; 20]));
}

/// The same calls on words and on bytes.
#[test]
fn bytes_and_words_agree() {
    let mut both = Both::new(&three(), &slice(&ALL, &many(&THREE, &ALL, 40)));
    let [mut words, mut cards] = sound();
    let commands = [
        [2, 1, 0],
        [3, 1, 2],
        [3, 2, 1],
        [9, 9, 9],
        [3, 1, 2],
        [0, 0, 150],
    ];
    for (number, [operation, x, y]) in commands.into_iter().enumerate() {
        let mut out = [0xEE; 20];
        let code = ring_step_cards(&mut words, &mut cards, operation, x, y, &mut out);
        match step_cards(&mut both.words, &mut both.cards, operation, x, y) {
            Ok(answer) => assert_eq!((code, &out[..]), (0, &bytes_of(&answer.words())[..])),
            Err(refusal) => assert_eq!((code, out), (refusal, [0xEE; 20])),
        }
        let (machine, revision) = (7 * number as u32, 6);
        let code = ring_offer(&words, &mut cards, machine, revision, 1);
        let offered = offer(&both.words, &mut both.cards, machine, revision, 1);
        assert_eq!(code, offered.err().unwrap_or(0));
        assert_eq!(words, bytes_of(&both.words));
        assert_eq!(cards, bytes_of(&both.cards));
    }
}
