//! All contestants make the same of any roll call and owner query: on random
//! records, damaged ones, and where a call is refused.

use ring_model::generator::Generator;
use ring_model::RECORD_WORDS;

use super::{Call, CONTESTANTS, OUT, PLAIN};
use crate::records::any_record;

/// The return of all of them.
fn agreed(call: Call, record: &[u8]) -> u32 {
    let outcomes = CONTESTANTS.each_ref().map(|contestant| {
        let (mut record, mut out) = (record.to_vec(), [0xBB; OUT]);
        let number = contestant.call(call, &mut record, &mut out);
        (number, out, record)
    });
    for (contestant, outcome) in CONTESTANTS.iter().zip(&outcomes) {
        let same = *outcome == outcomes[PLAIN];
        assert!(same, "{} differs: {call:?}", contestant.name);
    }
    outcomes[PLAIN].0
}

/// Roll calls and owner queries on random records; damaged by one word, most
/// are refused by 2.
fn tried(damaged: bool) -> [u32; 18] {
    let mut generator = Generator::new(700 + u64::from(damaged));
    let mut returns = [0; 18];
    for _ in 0..5_000 {
        let most = if generator.chance(50) { 4 } else { 64 };
        let n = 1 + generator.below(most);
        let mut record = any_record(&mut generator, n);
        if damaged {
            let place = generator.below(RECORD_WORDS as u32 * 4) as usize;
            record[place] ^= 1 << generator.below(8);
        }
        let (hub, number) = (generator.below(n + 1), generator.next_u32());
        for call in [Call::Roll(hub), Call::Owner(number)] {
            returns[agreed(call, &record) as usize] += 1;
        }
    }
    returns
}

#[test]
fn on_random_records() {
    let returns = tried(false);
    for number in [0, 4, 5, 15, 16] {
        assert!(returns[number] > 100, "few calls returned {number}");
    }
}

#[test]
fn on_damaged_records() {
    assert!(tried(true)[2] > 2_000);
}

#[test]
fn on_short_records() {
    let record = any_record(&mut Generator::new(7), 3);
    for words_len in [0, 7951] {
        for call in [Call::Roll(0), Call::Owner(0)] {
            assert_eq!(agreed(call, &record[..words_len]), 1);
        }
    }
}
