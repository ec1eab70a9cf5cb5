//! The tuned model's route agrees with the plain one's: return, outcomes and
//! every byte of the record, on words, on bytes carried over and on bytes in
//! place, with each way to test rows and messages.

#[path = "../../../tests/model/tests/common/mod.rs"]
mod common;
mod shared;

use common::driver::{command, identifiers, BUSY, FLOODED};
use ring_model::bytes as plain;
use ring_model::generator::Generator;
use ring_model::record::State;
use ring_model::RECORD_WORDS;
use ring_tuned::bytes as tuned;
use ring_tuned::bytes::in_place;
use ring_tuned::{Check, Fields, Ranges};
use shared::records::{any_words, damage};
use shared::{bytes_of, fours_of, words_of};

/// A hub, numbers, and how many words there are for the outcomes.
#[derive(Clone, Debug)]
struct Route {
    hub: u32,
    numbers: Vec<u32>,
    places: usize,
}

/// Return, record and outcomes.
type Made = (u32, Vec<u8>, Vec<u8>);

/// Numbers beside identifiers, most of them; so many that they are too many now
/// and then, or that places are missing.
fn any_route(generator: &mut Generator, words: &[u32]) -> Route {
    let n = words[1].clamp(1, 64);
    let count = [0, 1, 64, 65, generator.below(64)][generator.below(5) as usize];
    let mut number = |_| {
        let identifier = words[4 + 7 * generator.below(n) as usize];
        match generator.below(4) {
            0 => generator.next_u32(),
            beside => identifier.wrapping_add(beside).wrapping_sub(2),
        }
    };
    let numbers = (0..count).map(&mut number).collect();
    Route {
        hub: generator.below(n + 1),
        numbers,
        places: (6 * count as usize + 8).saturating_sub(generator.below(10) as usize),
    }
}

/// One route of every model on the same record; what came of it.
fn agreed(words: &[u32], route: &Route) -> Made {
    let (mut bytes, mut outcomes) = (bytes_of(words), vec![0xBB; 4 * route.places]);
    let numbers = bytes_of(&route.numbers);
    let number = plain::ring_route(&mut bytes, route.hub, &numbers, &mut outcomes);
    let expected = (number, bytes, outcomes);
    agrees::<Fields>(words, route, &expected);
    agrees::<Ranges>(words, route, &expected);
    expected
}

/// With one way to test: on bytes carried over, on bytes in place, on words.
fn agrees<C: Check>(words: &[u32], route: &Route, expected: &Made) {
    let numbers = fours_of(&bytes_of(&route.numbers));
    let before = vec![[0xBB; 4]; route.places];
    let (mut bytes, mut outcomes) = (bytes_of(words), before.clone());
    let number = tuned::route::<C>(&mut bytes, route.hub, &numbers, &mut outcomes);
    assert!((number, bytes, outcomes.concat()) == *expected, "{route:?}");

    let (mut fours, mut outcomes) = (fours_of(&bytes_of(words)), before);
    let number = in_place::route::<C>(&mut fours, route.hub, &numbers, &mut outcomes);
    let made = (number, fours.concat(), outcomes.concat());
    assert!(made == *expected, "{route:?}");

    let (mut after, mut outcomes) = (words.to_vec(), vec![0xBBBB_BBBB; route.places]);
    let outcome =
        ring_tuned::route::<C, _, _>(&mut after, route.hub, &route.numbers, &mut outcomes);
    let number = outcome.err().unwrap_or(0);
    let made = (number, bytes_of(&after), bytes_of(&outcomes));
    assert!(made == *expected, "{route:?}");
}

/// Routes among other commands, from a fresh ring on.
#[test]
fn runs_from_fresh() {
    let mut generator = Generator::new(400);
    for mix in [BUSY, FLOODED] {
        for n in [1, 2, 3, 9, 33, 64] {
            let mut words = vec![0; RECORD_WORDS];
            let names = identifiers(&mut generator, n);
            ring_model::fresh(&mut words, &names).expect("fresh is accepted");
            for _ in 0..200 {
                let state = State::read(&words).expect("the record reads");
                let next = command(&mut generator, mix, &state);
                let _ = ring_model::step(&mut words, next.operation, next.x, next.y);
                if generator.chance(10) {
                    let route = any_route(&mut generator, &words);
                    words = words_of(&agreed(&words, &route).1);
                }
            }
        }
    }
}

/// How often each refusal stands among the outcomes.
fn count(outcomes: &[u8], numbers: usize, refusals: &mut [u32; 13]) {
    for place in words_of(outcomes).chunks_exact(6).take(numbers) {
        refusals[place[0] as usize] += 1;
    }
}

#[test]
fn well_formed_records() {
    let mut generator = Generator::new(410);
    let (mut returns, mut refusals) = ([0; 27], [0; 13]);
    for _ in 0..6_000 {
        let (_, words) = any_words(&mut generator);
        let route = any_route(&mut generator, &words);
        let (number, _, outcomes) = agreed(&words, &route);
        returns[number as usize] += 1;
        if number == 0 {
            count(&outcomes, route.numbers.len(), &mut refusals);
        }
    }
    for number in [0, 25, 26] {
        assert!(returns[number] > 100, "few calls returned {number}");
    }
    for number in [0, 4, 5, 11, 12] {
        assert!(refusals[number] > 100, "few outcomes have {number}");
    }
}

#[test]
fn damaged_records() {
    let mut generator = Generator::new(420);
    let mut refused = 0;
    for _ in 0..10_000 {
        let (_, mut words) = any_words(&mut generator);
        let route = any_route(&mut generator, &words);
        damage(&mut generator, &mut words);
        refused += u32::from(agreed(&words, &route).0 == 2);
    }
    assert!(refused > 5_000, "{refused} were refused by 2");
}

/// Every question of the call, and each before those behind it.
#[test]
fn refusals_in_order() {
    let (_, words) = any_words(&mut Generator::new(430));
    let mut damaged = words.clone();
    damaged[0] = 7;
    for count in [0, 1, 64, 65] {
        for short in [0, 1] {
            let route = Route {
                hub: 0,
                numbers: vec![9; count],
                places: (6 * count).saturating_sub(short),
            };
            let own = match (count, short) {
                (65, _) => 25,
                (1 | 64, 1) => 26,
                _ => 0,
            };
            assert_eq!(agreed(&words, &route).0, own);
            assert_eq!(agreed(&damaged, &route).0, 2);
            assert_eq!(agreed(&damaged[..RECORD_WORDS - 1], &route).0, 1);
        }
    }
}
