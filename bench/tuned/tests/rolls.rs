//! The tuned model's roll call agrees with the plain one's: return, roll and
//! length, on words, on bytes carried over and on bytes in place, with each way
//! to test rows and messages.

#[path = "../../../tests/model/tests/common/mod.rs"]
mod common;
mod shared;

use common::driver::{command, identifiers, BUSY, CALM, SWAPPING};
use ring_model::bytes as plain;
use ring_model::generator::Generator;
use ring_model::record::State;
use ring_model::RECORD_WORDS;
use ring_tuned::bytes as tuned;
use ring_tuned::bytes::in_place;
use ring_tuned::{Check, Fields, Ranges};
use shared::records::{any_words, damage};
use shared::{bytes_of, fours_of};

/// A hub, words for the roll, and bytes for its length.
#[derive(Clone, Copy, Debug)]
struct Roll {
    hub: u32,
    room: usize,
    length: usize,
}

/// Return, roll and length.
type Made = (u32, Vec<u8>, Vec<u8>);

/// A roll from any hub and beside the last, now and then with too little room.
fn any_roll(generator: &mut Generator, words: &[u32]) -> Roll {
    let n = words[1].clamp(1, 64);
    let room = match generator.below(3) {
        0 => generator.below(n + 1),
        1 => n,
        _ => 70,
    };
    Roll {
        hub: generator.below(n + 1),
        room: room as usize,
        length: [4, 4, 4, 3, 7][generator.below(5) as usize],
    }
}

/// One roll call of every model on the same record; the number returned.
fn agreed(words: &[u32], roll: Roll) -> u32 {
    let (mut hubs, mut length) = (vec![0xBB; 4 * roll.room], vec![0xBB; roll.length]);
    let number = plain::ring_roll(&bytes_of(words), roll.hub, &mut hubs, &mut length);
    let expected = (number, hubs, length);
    agrees::<Fields>(words, roll, &expected);
    agrees::<Ranges>(words, roll, &expected);
    number
}

/// With one way to test: on bytes carried over, on bytes in place, on words.
fn agrees<C: Check>(words: &[u32], roll: Roll, expected: &Made) {
    let bytes = bytes_of(words);
    let before = (vec![[0xBB; 4]; roll.room], vec![0xBB; roll.length]);
    let (mut hubs, mut length) = before.clone();
    let number = tuned::roll::<C>(&bytes, roll.hub, &mut hubs, &mut length);
    assert!((number, hubs.concat(), length) == *expected, "{roll:?}");

    let (mut hubs, mut length) = before;
    let number = in_place::roll::<C>(&fours_of(&bytes), roll.hub, &mut hubs, &mut length);
    assert!((number, hubs.concat(), length) == *expected, "{roll:?}");

    if roll.length < 4 {
        return;
    }
    let mut hubs = vec![0xBBBB_BBBB; roll.room];
    let outcome = ring_tuned::roll_call::<C, _, _>(words, roll.hub, &mut hubs);
    assert_eq!(outcome.err().unwrap_or(0), expected.0, "{roll:?}");
    assert!(bytes_of(&hubs) == expected.1, "{roll:?}");
    let count = outcome.map_or(0xBBBB_BBBB, |count| count as u32);
    assert_eq!(expected.2[..4], count.to_le_bytes(), "{roll:?}");
}

/// Roll calls among the steps, from a fresh ring on.
#[test]
fn runs_from_fresh() {
    let (mut generator, mut returns) = (Generator::new(500), [0; 18]);
    for mix in [CALM, BUSY, SWAPPING] {
        for n in [1, 2, 3, 9, 33, 64] {
            let mut words = vec![0; RECORD_WORDS];
            let names = identifiers(&mut generator, n);
            ring_model::fresh(&mut words, &names).expect("fresh is accepted");
            for _ in 0..1_000 {
                let state = State::read(&words).expect("the record reads");
                let next = command(&mut generator, mix, &state);
                let _ = ring_model::step(&mut words, next.operation, next.x, next.y);
                let roll = any_roll(&mut generator, &words);
                returns[agreed(&words, roll) as usize] += 1;
            }
        }
    }
    for number in [0, 4, 5, 16, 17] {
        assert!(returns[number] > 100, "few calls returned {number}");
    }
}

#[test]
fn well_formed_records() {
    let (mut generator, mut returns) = (Generator::new(510), [0; 18]);
    for _ in 0..10_000 {
        let (_, words) = any_words(&mut generator);
        let roll = any_roll(&mut generator, &words);
        returns[agreed(&words, roll) as usize] += 1;
    }
    for number in [0, 4, 5, 16, 17] {
        assert!(returns[number] > 100, "few calls returned {number}");
    }
}

#[test]
fn damaged_records() {
    let (mut generator, mut refused) = (Generator::new(520), 0);
    for _ in 0..10_000 {
        let (_, mut words) = any_words(&mut generator);
        let roll = any_roll(&mut generator, &words);
        damage(&mut generator, &mut words);
        refused += u32::from(agreed(&words, roll) == 2);
    }
    assert!(refused > 4_000, "{refused} were refused by 2");
}

/// Every question of the call, and each before those behind it.
#[test]
fn refusals_in_order() {
    let mut words = vec![0; RECORD_WORDS];
    ring_model::fresh(&mut words, &[100, 200]).expect("fresh is accepted");
    let mut damaged = words.clone();
    damaged[0] = 7;
    for (hub, own) in [(2, 4), (1, 5), (0, 0)] {
        for room in [0, 1] {
            let last = if room == 0 { 17 } else { 0 };
            let own = if own == 0 { last } else { own };
            for length in [3, 4] {
                let roll = Roll { hub, room, length };
                let first = |number| if length == 3 { 17 } else { number };
                assert_eq!(agreed(&words, roll), first(own));
                assert_eq!(agreed(&damaged, roll), first(2));
                assert_eq!(agreed(&damaged[..RECORD_WORDS - 1], roll), first(1));
            }
        }
    }
}
