//! The roll call on bytes (document 02, 2026-07): word order, what stays, each
//! refusal, and the order of the questions.

mod common;

use common::{inside, outside, record, Run};
use ring_model::bytes::ring_roll;
use ring_model::{roll_call, RECORD_WORDS};

const RECORD_BYTES: usize = 4 * RECORD_WORDS;

fn bytes_of(words: &[u32]) -> Vec<u8> {
    words.iter().flat_map(|word| word.to_le_bytes()).collect()
}

/// A call with so many bytes for the roll and for its length, all of them
/// 0xEE before it: the number returned, and both after it.
fn called(words: &[u8], hub: u32, room: usize, length: usize) -> (u32, Vec<u8>, Vec<u8>) {
    let (mut roll, mut length) = (vec![0xEE; room], vec![0xEE; length]);
    let code = ring_roll(words, hub, &mut roll, &mut length);
    (code, roll, length)
}

/// A refused call, which writes neither output.
fn refused(words: &[u8], hub: u32, room: usize, length: usize) -> u32 {
    let (code, roll, written) = called(words, hub, room, length);
    assert_ne!(code, 0);
    assert_eq!((roll, written), (vec![0xEE; room], vec![0xEE; length]));
    code
}

/// Hubs 0 (300), 1 (100) and 2 (200) at rest, hub 3 (400) outside.
fn three_at_rest() -> Vec<u8> {
    bytes_of(&Run::with_members(&[300, 100, 200, 400], &[1, 2]).words)
}

/// Hub 0 leads into a circle that it is not part of, hub 3 is outside, hub 4
/// leads there.
fn no_way_round() -> Vec<u8> {
    let rows = [
        inside(300, 1, 1),
        inside(100, 2, 2),
        inside(200, 1, 1),
        outside(400),
        inside(500, 3, 3),
    ];
    bytes_of(&record(0, &rows, &[]))
}

#[test]
fn lowest_byte_first() {
    let sound = three_at_rest();
    let (code, roll, length) = called(&sound, 2, 12, 4);
    assert_eq!((code, length), (0, vec![3, 0, 0, 0]));
    assert_eq!(roll, [2, 0, 0, 0, 0, 0, 0, 0, 1, 0, 0, 0]);
    let alone = bytes_of(&Run::found(&[0x0102_0304]).words);
    let (code, roll, length) = called(&alone, 0, 4, 4);
    assert_eq!((code, roll, length), (0, vec![0; 4], vec![1, 0, 0, 0]));
}

/// A ring at rest of these hubs in this order, with identifiers from 0 on.
fn in_order(hubs: &[u32]) -> Vec<u8> {
    let mut rows = vec![outside(0); hubs.len()];
    let at = |place: usize| hubs[place % hubs.len()];
    for (place, &hub) in hubs.iter().enumerate() {
        let (pred, succ) = (at(place + hubs.len() - 1), at(place + 1));
        rows[hub as usize] = inside(1000 * place as u32, pred, succ);
    }
    bytes_of(&record(0, &rows, &[]))
}

/// Rings of 1 to 64 hubs, out of the order of their numbers, from each hub.
#[test]
fn rolls_of_every_length() {
    for n in 1..=64 {
        let mut hubs: Vec<u32> = (0..n).collect();
        hubs.sort_by_key(|&hub| hub * 37 % 64);
        let words = in_order(&hubs);
        for _ in 0..n {
            let (code, roll, length) = called(&words, hubs[0], 4 * n as usize, 4);
            assert_eq!((code, length), (0, bytes_of(&[n])));
            assert_eq!(roll, bytes_of(&hubs));
            assert_eq!(refused(&words, hubs[0], 4 * n as usize - 1, 4), 17);
            hubs.rotate_left(1);
        }
    }
}

/// Every length of the output for the roll around enough, with one to three
/// bytes left over: 17, or written and all behind left as it was.
#[test]
fn room_for_the_roll() {
    let sound = three_at_rest();
    for room in 0..30 {
        let (code, roll, length) = called(&sound, 1, room, 4);
        if room < 12 {
            assert_eq!((code, roll), (17, vec![0xEE; room]), "{room} bytes");
            assert_eq!(length, [0xEE; 4]);
            continue;
        }
        assert_eq!((code, length), (0, bytes_of(&[3])), "{room} bytes");
        assert_eq!(roll[..12], bytes_of(&[1, 2, 0]));
        assert_eq!(roll[12..], vec![0xEE; room - 12]);
    }
    let (code, roll, _) = called(&sound, 1, 1000, 4);
    assert_eq!((code, &roll[12..]), (0, &[0xEE; 988][..]));
}

/// The same of the output for its length.
#[test]
fn room_for_the_length() {
    let sound = three_at_rest();
    for room in 0..12 {
        let (code, roll, length) = called(&sound, 1, 14, room);
        if room < 4 {
            assert_eq!((code, length), (17, vec![0xEE; room]), "{room} bytes");
            assert_eq!(roll, [0xEE; 14]);
            continue;
        }
        assert_eq!((code, &length[..4]), (0, &[3, 0, 0, 0][..]));
        assert_eq!(length[4..], vec![0xEE; room - 4], "{room} bytes");
    }
}

/// 1,987 words and three bytes are 1; words and bytes behind the record are
/// not read.
#[test]
fn records() {
    let sound = three_at_rest();
    let expected = called(&sound, 0, 13, 5);
    for over in 0..12 {
        let mut longer = sound.clone();
        longer.extend(vec![0xCC; over]);
        assert_eq!(called(&longer, 0, 13, 5), expected);
    }
    for cut in [1, 2, 3, 4, 5, 4 * 1000, RECORD_BYTES] {
        assert_eq!(refused(&sound[..RECORD_BYTES - cut], 0, 13, 5), 1);
    }
}

#[test]
fn each_refusal() {
    let (sound, mut damaged) = (three_at_rest(), three_at_rest());
    damaged[8] = 1;
    assert_eq!(refused(&sound, 0, 12, 3), 17);
    assert_eq!(refused(&sound[4..], 0, 12, 4), 1);
    assert_eq!(refused(&damaged, 0, 12, 4), 2);
    for hub in [4, 5, 63, 64, 255, 256, u32::MAX] {
        assert_eq!(refused(&sound, hub, 12, 4), 4);
    }
    assert_eq!(refused(&sound, 3, 12, 4), 5);
    assert_eq!(refused(&no_way_round(), 0, 12, 4), 16);
    assert_eq!(refused(&no_way_round(), 4, 12, 4), 16);
    assert_eq!(refused(&sound, 0, 11, 4), 17);
}

/// A hub that is joining is refused by 5, and the roll from one that has just
/// been pointed at does not yet come back to it.
#[test]
fn refusals_on_the_way() {
    let mut run = Run::with_members(&[100, 300, 200], &[1]);
    let roll = |run: &Run, hub| called(&bytes_of(&run.words), hub, 12, 4).0;
    run.join(2, 1).expect("join is accepted");
    assert_eq!([0, 1, 2].map(|hub| roll(&run, hub)), [0, 0, 5]);
    run.deliver(2, 1).expect("JOIN is delivered");
    run.deliver(1, 2).expect("JOINPOINT is delivered");
    assert_eq!([0, 1, 2].map(|hub| roll(&run, hub)), [0, 0, 16]);
    run.drain();
    let (code, rolled, _) = called(&bytes_of(&run.words), 2, 12, 4);
    assert_eq!((code, rolled), (0, bytes_of(&[2, 1, 0])));
}

/// Records with the number of the question about them that is answered no,
/// and with that of the way round from hub 0.
fn wrong_records() -> Vec<(Vec<u8>, u32, u32)> {
    let mut all = Vec::new();
    for (sound, way) in [(three_at_rest(), 0), (no_way_round(), 16)] {
        let mut damaged = sound.clone();
        damaged[0] = 9;
        let short = |words: &[u8]| words[..RECORD_BYTES - 1].to_vec();
        all.extend([(short(&sound), 1, way), (short(&damaged), 1, way)]);
        all.extend([(damaged, 2, way), (sound, 0, way)]);
    }
    all
}

/// All that can be wrong, together with all else that can be: the first
/// question that is answered no decides.
#[test]
fn order_of_the_questions() {
    for (words, second, way) in wrong_records() {
        for (hub, third) in [(99, 4), (3, 5), (0, way)] {
            for (room, last) in [(0, 17), (11, 17), (12, 0)] {
                for (length, first) in [(0, 17), (3, 17), (4, 0)] {
                    let noes = [first, second, third, last];
                    let should = noes.into_iter().find(|&no| no != 0);
                    let code = match should {
                        Some(_) => refused(&words, hub, room, length),
                        None => called(&words, hub, room, length).0,
                    };
                    assert_eq!(code, should.unwrap_or(0), "{noes:?}");
                }
            }
        }
    }
}

/// The same roll calls on words and on bytes.
#[test]
fn bytes_and_words_agree() {
    for words in [three_at_rest(), no_way_round()] {
        let record: Vec<u32> = words
            .chunks_exact(4)
            .map(|four| u32::from_le_bytes(four.try_into().expect("four bytes")))
            .collect();
        for hub in 0..7 {
            for room in 0..5 {
                let mut output = vec![0xEEEE_EEEE; room];
                let should = roll_call(&record, hub, &mut output);
                let (code, roll, length) = called(&words, hub, 4 * room, 4);
                assert_eq!(code, should.err().unwrap_or(0));
                assert_eq!(roll, bytes_of(&output));
                let count = should.map_or(0xEEEE_EEEE, |count| count as u32);
                assert_eq!(length, bytes_of(&[count]));
            }
        }
    }
}
