//! Faults planted in front of the engine's route.

mod asked;
mod lists;
mod memory;
mod outcomes;
mod records;

use ring_model::bytes::{ANSWER_BYTES, NO_REFUSAL, OUTCOME_BYTES};
use ring_model::command::ASK;
use ring_model::refusal::NOT_IN_RING;

use crate::calls::{put_word, word_at, words_of, Calls, Route, ENGINE, RECORD_BYTES};
use crate::engine;
use crate::faults::one_in;

/// One call in so many shows a seldom fault.
const SELDOM: u64 = 40;

/// What is wrong, the part that must see it, and the call.
type Wrong = (&'static str, &'static str, Route);

/// All of them.
pub fn faults() -> Vec<(&'static str, &'static str, Calls)> {
    let tables: [&[Wrong]; 5] =
        [&asked::ROUTES, &lists::ROUTES, &memory::ROUTES, &outcomes::ROUTES, &records::ROUTES];
    let with = |&(name, part, route): &Wrong| (name, part, Calls { route, ..ENGINE });
    let mut all: Vec<_> = tables.into_iter().flatten().map(with).collect();
    let step = |step| Calls { step, ..ENGINE };
    all.extend(ALONE.map(|(name, call)| (name, "routes", step(call))));
    all
}

/// A route that is made as the wrong ones are, and is not wrong.
pub fn same() -> Calls {
    Calls {
        route: |words, hub, numbers, outcomes| by_steps(words, hub, numbers, outcomes, ask),
        ..ENGINE
    }
}

/// `ring_step`: record, operation, x, y and output.
type Step = fn(&mut [u8], u32, u32, u32, &mut [u8]) -> u32;

/// Steps that differ from the route, which does not: only on copies, and where there is no byte too
/// many.
const ALONE: [(&str, Step); 2] = [
    ("alone the questions of a route are answered otherwise", |words, operation, x, y, out| {
        let code = engine::step(words, operation, x, y, out);
        if code == NO_REFUSAL && is_alone(words, operation, out) && one_in(SELDOM) {
            out[4] ^= 1;
        }
        code
    }),
    ("alone a refused question of a route takes a ticket", |words, operation, x, y, out| {
        let code = engine::step(words, operation, x, y, out);
        if code == NOT_IN_RING && is_alone(words, operation, out) {
            let asked = word_at(words, 3);
            put_word(words, 3, asked.saturating_add(1));
        }
        code
    }),
];

/// Whether an ask is one of those that are made one by one.
fn is_alone(words: &[u8], operation: u32, out: &[u8]) -> bool {
    operation == ASK && [words.len(), out.len()] == [RECORD_BYTES, ANSWER_BYTES]
}

/// One ask of the engine: record, hub, number and output.
fn ask(words: &mut [u8], hub: u32, number: u32, out: &mut [u8]) -> u32 {
    engine::step(words, ASK, hub, number, out)
}

/// A route that is made of asks. Its own questions are the engine's.
fn by_steps(
    words: &mut [u8],
    hub: u32,
    numbers: &[u8],
    outcomes: &mut [u8],
    ask: impl FnMut(&mut [u8], u32, u32, &mut [u8]) -> u32,
) -> u32 {
    match questions(words, hub, numbers, outcomes) {
        NO_REFUSAL => asks(words, hub, numbers, outcomes, ask),
        code => code,
    }
}

/// The number that the engine returns, tried on copies.
fn questions(words: &[u8], hub: u32, numbers: &[u8], outcomes: &[u8]) -> u32 {
    engine::route(&mut words.to_vec(), hub, numbers, &mut outcomes.to_vec())
}

/// The asks of a list, as far as there are places.
fn asks(
    words: &mut [u8],
    hub: u32,
    numbers: &[u8],
    outcomes: &mut [u8],
    mut ask: impl FnMut(&mut [u8], u32, u32, &mut [u8]) -> u32,
) -> u32 {
    let places = outcomes.chunks_exact_mut(OUTCOME_BYTES);
    for (place, number) in places.zip(words_of(numbers)) {
        let mut out = [0; ANSWER_BYTES];
        let code = ask(words, hub, number, &mut out);
        put_word(place, 0, code);
        place[4..].copy_from_slice(&out);
    }
    NO_REFUSAL
}

/// The numbers of a list, and the whole places for their outcomes.
fn counts(numbers: &[u8], outcomes: &[u8]) -> (usize, usize) {
    (numbers.len() / 4, outcomes.len() / OUTCOME_BYTES)
}

/// The refusal numbers in the outcomes of a list.
fn numbers_of<'a>(outcomes: &'a [u8], numbers: &[u8]) -> impl Iterator<Item = u32> + 'a {
    outcomes.chunks_exact(OUTCOME_BYTES).take(numbers.len() / 4).map(|place| word_at(place, 0))
}

/// Turns the order of outcomes.
fn turn(outcomes: &mut [u8]) {
    let turned: Vec<u8> = outcomes.rchunks_exact(OUTCOME_BYTES).flatten().copied().collect();
    outcomes.copy_from_slice(&turned);
}
