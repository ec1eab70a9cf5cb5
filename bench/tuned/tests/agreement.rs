//! The tuned model agrees with the plain one: return, output and every byte of
//! the record, on words, on bytes carried over and on bytes in place, with each
//! way to test rows and messages.

#[path = "../../../tests/model/tests/common/mod.rs"]
mod common;
mod shared;

use common::driver::{command, identifiers, Mix, BUSY, CALM, FLOODED, SWAPPING};
use ring_model::bytes as plain;
use ring_model::generator::Generator;
use ring_model::record::State;
use ring_model::{Command, RECORD_WORDS};
use ring_tuned::bytes as tuned;
use ring_tuned::bytes::in_place;
use ring_tuned::{Check, Fields, Ranges};
use shared::records::{any_words, damage};
use shared::{bytes_of, fours_of, words_of, BEFORE};

/// One step of every model on the same record; the record afterwards.
fn agreed_step(words: &[u32], command: Command) -> Vec<u32> {
    let (mut bytes, mut out) = (bytes_of(words), BEFORE);
    let Command { operation, x, y } = command;
    let number = plain::ring_step(&mut bytes, operation, x, y, &mut out);
    let expected = (number, out, bytes);
    step_agrees::<Fields>(words, command, &expected);
    step_agrees::<Ranges>(words, command, &expected);
    words_of(&expected.2)
}

/// With one way to test: on bytes carried over, on bytes in place, on words.
fn step_agrees<C: Check>(words: &[u32], command: Command, expected: &(u32, [u8; 23], Vec<u8>)) {
    let Command { operation, x, y } = command;
    let (mut carried, mut out) = (bytes_of(words), BEFORE);
    let number = tuned::step::<C>(&mut carried, operation, x, y, &mut out);
    assert!((number, out, carried) == *expected, "{command:?}");

    let (mut fours, mut out) = (fours_of(&bytes_of(words)), BEFORE);
    let number = in_place::step::<C>(&mut fours, operation, x, y, &mut out);
    assert!((number, out, fours.concat()) == *expected, "{command:?}");

    let mut after = words.to_vec();
    let outcome = ring_tuned::step::<C, _>(&mut after, operation, x, y);
    assert_eq!(outcome.err().unwrap_or(0), expected.0, "{command:?}");
    assert!(bytes_of(&after) == expected.2, "{command:?}");
}

/// One owner query of every model on the same record.
fn agreed_owner(words: &[u32], key: u32) {
    let mut out = BEFORE;
    let number = plain::ring_owner(&bytes_of(words), key, &mut out);
    owner_agrees::<Fields>(words, key, (number, out));
    owner_agrees::<Ranges>(words, key, (number, out));
}

fn owner_agrees<C: Check>(words: &[u32], key: u32, expected: (u32, [u8; 23])) {
    let bytes = bytes_of(words);
    let mut out = BEFORE;
    let number = tuned::owner::<C>(&bytes, key, &mut out);
    assert_eq!((number, out), expected);
    let mut out = BEFORE;
    let number = in_place::owner::<C>(&fours_of(&bytes), key, &mut out);
    assert_eq!((number, out), expected);
}

/// A founding of both models, by the smallest identifier or by the hub that is
/// named; the record afterwards, also where it was refused.
fn fresh_words(identifiers: &[u32], named: Option<u32>) -> Vec<u32> {
    let mut words = vec![9; RECORD_WORDS + 2];
    let mut expected = words.clone();
    let (outcome, tuned_outcome) = match named {
        None => (
            ring_model::fresh(&mut expected, identifiers),
            ring_tuned::fresh(&mut words, identifiers),
        ),
        Some(founder) => (
            ring_model::fresh_by(&mut expected, identifiers, founder),
            ring_tuned::fresh_by(&mut words, identifiers, founder),
        ),
    };
    assert_eq!(tuned_outcome, outcome);
    assert!(words == expected);
    words
}

/// A founding by each form; the named founder is any hub, or beside the last.
fn founded_both_ways(generator: &mut Generator, identifiers: &[u32]) {
    let n = identifiers.len() as u32;
    fresh_words(identifiers, None);
    for founder in [0, generator.below(n + 1), n, n + 1, 255, 256, u32::MAX] {
        fresh_words(identifiers, Some(founder));
    }
}

fn run_from_fresh(generator: &mut Generator, n: usize, mix: Mix, calls: usize) {
    let names = identifiers(generator, n);
    let named = generator.chance(50).then(|| generator.below(n as u32));
    let mut words = fresh_words(&names, named);
    for _ in 0..calls {
        let state = State::read(&words).expect("the record reads");
        words = agreed_step(&words, command(generator, mix, &state));
        if generator.chance(10) {
            agreed_owner(&words, generator.next_u32());
        }
    }
}

#[test]
fn runs_from_fresh() {
    for (seed, mix) in [CALM, BUSY, SWAPPING, FLOODED].into_iter().enumerate() {
        let mut generator = Generator::new(seed as u64);
        for n in [1, 2, 3, 4, 5, 7, 8, 9, 16, 31, 33, 63, 64] {
            run_from_fresh(&mut generator, n, mix, 2_000);
        }
    }
}

#[test]
fn founding() {
    let mut generator = Generator::new(50);
    for n in 0..=66 {
        let mut names: Vec<u32> = (0..n).map(|_| generator.next_u32()).collect();
        founded_both_ways(&mut generator, &names);
        for _ in 0..40 {
            let (one, other) = (generator.below(n), generator.below(n));
            if n > 0 {
                names[one as usize] = names[other as usize];
                founded_both_ways(&mut generator, &names);
                names[one as usize] = generator.next_u32();
            }
        }
    }
    let mut short = [0; RECORD_WORDS - 1];
    assert_eq!(ring_tuned::fresh(&mut short, &[1]), Err(1));
    assert_eq!(ring_tuned::fresh_by(&mut short, &[1, 1], 2), Err(1));
}

#[test]
fn well_formed_records() {
    let mut generator = Generator::new(100);
    for _ in 0..40_000 {
        let (state, words) = any_words(&mut generator);
        agreed_step(&words, command(&mut generator, BUSY, &state));
        agreed_owner(&words, generator.next_u32());
    }
}

#[test]
fn damaged_records() {
    let mut generator = Generator::new(200);
    for _ in 0..60_000 {
        let (state, mut words) = any_words(&mut generator);
        for _ in 0..=generator.below(2) {
            damage(&mut generator, &mut words);
        }
        agreed_step(&words, command(&mut generator, BUSY, &state));
        agreed_owner(&words, generator.next_u32());
    }
}

#[test]
fn short_buffers() {
    short_buffers_agree::<Fields>();
    short_buffers_agree::<Ranges>();
}

fn short_buffers_agree<C: Check>() {
    let words = bytes_of(&fresh_words(&[5, 9], None));
    for (words_len, out_len) in [(7952, 19), (7951, 20), (0, 20), (7951, 0), (7952, 3)] {
        let mut short = words[..words_len].to_vec();
        let mut fours = fours_of(&short);
        let mut out = BEFORE;
        let out = &mut out[..out_len];
        let number = plain::ring_step(&mut short, 0, 0, 0, out);
        assert_eq!(tuned::step::<C>(&mut short, 0, 0, 0, out), number);
        assert_eq!(in_place::step::<C>(&mut fours, 0, 0, 0, out), number);
        let number = plain::ring_owner(&short, 0, out);
        assert_eq!(tuned::owner::<C>(&short, 0, out), number);
        assert_eq!(in_place::owner::<C>(&fours, 0, out), number);
    }
}
