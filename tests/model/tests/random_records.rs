//! Every call ends on every record, whether a run can reach it or not: what
//! is refused changes nothing, what is accepted stays well formed.

mod common;

use std::collections::BTreeSet;

use common::driver::{command, Mix};
use common::records::any_state;
use ring_model::bytes::{ring_owner, ring_roll, ring_step};
use ring_model::generator::Generator;
use ring_model::record::State;
use ring_model::{hub_row, owner, roll_call, step, well_formed, Answer, Command, RECORD_WORDS};

const MIX: Mix = Mix {
    ask: 12,
    join: 12,
    leave: 12,
    anything: 8,
};

/// Words past the record, which no call may read or write.
const PAST: [u32; 3] = [7, 8, 9];

fn words_of(state: &State) -> Vec<u32> {
    let mut words = vec![0; RECORD_WORDS];
    state.write(&mut words);
    words.extend(PAST);
    words
}

fn bytes_of(words: &[u32]) -> Vec<u8> {
    words.iter().flat_map(|word| word.to_le_bytes()).collect()
}

/// One step on words and on bytes, with all that must hold of any step.
fn checked_step(words: &mut Vec<u32>, command: Command) -> Result<Answer, u32> {
    let Command { operation, x, y } = command;
    let before = words.clone();
    let outcome = step(words, operation, x, y);
    match outcome {
        Ok(_) => assert!(well_formed(words), "{command:?}"),
        Err(_) => assert_eq!(*words, before, "{command:?}"),
    }
    assert_eq!(words[RECORD_WORDS..], PAST);
    let mut bytes = bytes_of(&before);
    bytes.push(0xCC);
    let mut out = [0xBB; 20];
    let number = ring_step(&mut bytes, operation, x, y, &mut out);
    assert_eq!(bytes.pop(), Some(0xCC));
    assert_eq!(bytes, bytes_of(words));
    match outcome {
        Ok(answer) => assert_eq!((number, out.to_vec()), (0, bytes_of(&answer.words()))),
        Err(refusal) => assert_eq!((number, out), (refusal, [0xBB; 20])),
    }
    outcome
}

/// The three reading calls agree with each other and with the record.
fn checked_reading(words: &[u32], state: &State, node: u32, key: u32) -> BTreeSet<u32> {
    let mut refusals = BTreeSet::new();
    let row = hub_row(words, node);
    assert_eq!(row.len(), if node < state.n() { 7 } else { 0 });
    let mut out = [0xBB; 4];
    match owner(words, key) {
        Ok(holder) => {
            assert_eq!(ring_owner(&bytes_of(words), key, &mut out), 0);
            assert_eq!(out, holder.to_le_bytes());
        }
        Err(number) => {
            refusals.insert(number);
            assert_eq!(ring_owner(&bytes_of(words), key, &mut out), number);
            assert_eq!(out, [0xBB; 4]);
        }
    }
    refusals.extend(checked_roll(words, node).err());
    refusals
}

/// A roll call on words and on bytes, with room for three hubs.
fn checked_roll(words: &[u32], node: u32) -> Result<usize, u32> {
    let mut output = [0xBBBB_BBBB; 64];
    let outcome = roll_call(words, node, &mut output[..3]);
    match outcome {
        Ok(length) => assert_eq!((output[0], output[length]), (node, 0xBBBB_BBBB)),
        Err(_) => assert_eq!(output, [0xBBBB_BBBB; 64]),
    }
    let (mut roll, mut length) = ([0xBB; 15], [0xBB; 4]);
    let code = ring_roll(&bytes_of(words), node, &mut roll, &mut length);
    assert_eq!(code, outcome.err().unwrap_or(0));
    assert_eq!(roll[..12], bytes_of(&output[..3]));
    assert_eq!(roll[12..], [0xBB; 3]);
    let count = outcome.map_or(0xBBBB_BBBB, |count| count as u32);
    assert_eq!(length, count.to_le_bytes());
    outcome
}

#[test]
fn well_formed_records() {
    let mut generator = Generator::new(11);
    let mut answers = BTreeSet::new();
    let mut refusals = BTreeSet::new();
    for _ in 0..4000 {
        let state = any_state(&mut generator);
        let mut words = words_of(&state);
        assert!(well_formed(&words));
        assert_eq!(State::read(&words).as_ref(), Ok(&state));
        for _ in 0..4 {
            let state = State::read(&words).expect("the record reads");
            let next = command(&mut generator, MIX, &state);
            match checked_step(&mut words, next) {
                Ok(answer) => answers.insert(answer.kind),
                Err(number) => refusals.insert(number),
            };
        }
        let state = State::read(&words).expect("the record reads");
        let (node, key) = (generator.below(state.n() + 1), generator.next_u32());
        refusals.extend(checked_reading(&words, &state, node, key));
    }
    assert_eq!(answers, (0..=7).collect());
    assert_eq!(
        refusals,
        BTreeSet::from([3, 4, 5, 6, 7, 8, 9, 10, 11, 12, 15, 16, 17])
    );
}

/// Records with one to three words changed: refused with 2, or well formed.
#[test]
fn records_with_changed_words() {
    let mut generator = Generator::new(12);
    let mut broken = 0;
    for _ in 0..4000 {
        let state = any_state(&mut generator);
        let mut words = words_of(&state);
        for _ in 0..=generator.below(3) {
            let index = generator.below(4 + 7 * state.n() + 7) as usize;
            let place = *generator
                .pick(&[index, 452 + index % 40, index % 4])
                .expect("three");
            words[place] = *generator.pick(&[0, 1, 2, 3, 255, u32::MAX]).expect("six");
        }
        let good = well_formed(&words);
        let next = Command::new(generator.below(4), 0, 0);
        let outcome = checked_step(&mut words, next);
        assert_eq!(outcome == Err(2), !good);
        broken += u32::from(!good);
    }
    assert!(broken > 2000, "{broken} of 4000 broken");
}

/// Slices of any length and content.
#[test]
fn words_of_no_meaning() {
    let mut generator = Generator::new(13);
    for length in [0, 1, 4, 452, 1987, 1988, 1989, 2500] {
        let mut words: Vec<u32> = (0..length).map(|_| generator.below(3)).collect();
        let number = if length < RECORD_WORDS { 1 } else { 2 };
        let before = words.clone();
        assert_eq!(step(&mut words, 0, 0, 0), Err(number));
        assert_eq!(owner(&words, 0), Err(number));
        assert_eq!(roll_call(&words, 0, &mut []), Err(number));
        assert!(hub_row(&words, 0).is_empty());
        assert_eq!(words, before);
    }
}
