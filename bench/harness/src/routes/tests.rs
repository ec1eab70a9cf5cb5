//! All contestants make the same of any route: on random records, damaged
//! ones, and where a call is refused.

use ring_model::generator::Generator;
use ring_model::RECORD_WORDS;

use super::contestants::{CONTESTANTS, ONE_BY_ONE, PLAIN};
use super::{outcome, PLACE};
use crate::records::any_record;

/// The return of all of them; where it is none, that of the steps one by one
/// too, which do not ask the questions of a route.
fn agreed(record: &[u8], hub: u32, numbers: &[u8], places_len: usize) -> u32 {
    let route = (record, hub, numbers);
    let expected = outcome(&CONTESTANTS[PLAIN], route, places_len);
    let asked = if expected.0 == 0 {
        &CONTESTANTS[..]
    } else {
        &CONTESTANTS[..ONE_BY_ONE]
    };
    for contestant in asked {
        let same = outcome(contestant, route, places_len) == expected;
        assert!(same, "{} differs: {numbers:?} at {hub}", contestant.name);
    }
    expected.0
}

/// Numbers beside the identifiers of a record, most of them.
fn any_numbers(generator: &mut Generator, record: &[u8], n: u32, count: u32) -> Vec<u8> {
    let mut number = |_| {
        let row = 16 + 28 * generator.below(n) as usize;
        let four = record[row..row + 4].try_into().expect("four bytes");
        let below = u32::from_le_bytes(four).wrapping_sub(1);
        match generator.below(4) {
            3 => generator.next_u32(),
            beside => below.wrapping_add(beside),
        }
    };
    (0..count).flat_map(|i| number(i).to_le_bytes()).collect()
}

/// On random records; damaged by one word, most calls are refused by 2.
fn tried(damaged: bool) -> [u32; 27] {
    let mut generator = Generator::new(600 + u64::from(damaged));
    let mut returns = [0; 27];
    for _ in 0..3_000 {
        let n = 1 + generator.below(64);
        let mut record = any_record(&mut generator, n);
        let count = [1, 64, generator.below(67)][generator.below(3) as usize];
        let numbers = any_numbers(&mut generator, &record, n, count);
        if damaged {
            let place = generator.below(RECORD_WORDS as u32 * 4) as usize;
            record[place] ^= 1 << generator.below(8);
        }
        let hub = generator.below(n + 1);
        let places_len = (PLACE * count as usize + 5).saturating_sub(generator.below(9) as usize);
        returns[agreed(&record, hub, &numbers, places_len) as usize] += 1;
    }
    returns
}

#[test]
fn on_random_records() {
    let returns = tried(false);
    assert!(returns[0] > 1_000 && returns[25] > 10 && returns[26] > 100);
    assert_eq!(returns[0] + returns[25] + returns[26], 3_000);
}

#[test]
fn on_damaged_records() {
    let returns = tried(true);
    assert!(returns[0] > 10 && returns[2] > 1_000);
}

#[test]
fn on_short_buffers() {
    let record = any_record(&mut Generator::new(7), 3);
    for words_len in [0, 7951, 7952] {
        for numbers_len in [0, 3, 4, 7, 256, 259, 260] {
            let (words, numbers) = (&record[..words_len], &[9; 260][..numbers_len]);
            for short in [0, 1, PLACE] {
                let places_len = (PLACE * (numbers_len / 4)).saturating_sub(short);
                agreed(words, 1, numbers, places_len);
            }
        }
    }
}
