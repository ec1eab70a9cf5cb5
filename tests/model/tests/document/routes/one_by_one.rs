//! A route leaves what its questions leave when each is asked alone, on records
//! of every kind.

use ring_model::generator::Generator;
use ring_model::kinds::LEAVEDONE;
use ring_model::record::State;
use ring_model::{step_tallied, Tally, RECORD_WORDS};

use super::{Lent, Six, MOST, PLACE};
use crate::common::message;
use crate::common::records::any_state;

/// The list asked by steps: the outcomes, and what is left of what was lent.
fn by_steps(lent: &Lent, hub: u32, numbers: &[u32]) -> (Vec<Six>, Vec<u32>, Tally) {
    let (mut words, mut tally) = (lent.words.clone(), lent.tally);
    let mut outcomes = Vec::new();
    for &number in numbers {
        let six = match step_tallied(&mut words, 0, hub, number, &mut tally) {
            Err(refusal) => [refusal, 0, 0, 0, 0, 0],
            Ok(answer) => [
                0,
                answer.kind,
                answer.hub,
                answer.number,
                answer.ticket,
                answer.hops,
            ],
        };
        outcomes.push(six);
    }
    (outcomes, words, tally)
}

/// Any well-formed record, often with little room or few tickets left.
fn some_state(generator: &mut Generator) -> State {
    let mut state = any_state(generator);
    if generator.chance(40) {
        let room = generator.below(70) as usize;
        let waiting = message(LEAVEDONE, 0, generator.below(state.n()), 0);
        state.messages.resize(256 - room, waiting);
    }
    if generator.chance(30) {
        // Tickets of what waits must stay below.
        state.asked = u32::MAX - generator.below(70);
        let below = state.asked - 1;
        state.messages.iter_mut().for_each(|m| m.b = m.b.min(below));
    }
    state
}

/// Numbers around the identifiers, where ranges meet; now and then any.
fn some_numbers(generator: &mut Generator, state: &State) -> Vec<u32> {
    let count = match generator.below(4) {
        0 => MOST as u32,
        1 => generator.below(3),
        _ => generator.below(MOST as u32 + 1),
    };
    let number = |_| {
        let hub = generator.below(state.n());
        let beside = generator.below(3).wrapping_sub(1);
        match generator.below(5) {
            0 => generator.next_u32(),
            _ => state.row(hub).identifier.wrapping_add(beside),
        }
    };
    (0..count).map(number).collect()
}

/// What was met: refusals by their number, found ones behind an 11, 12 behind
/// an accepted one.
#[derive(Default)]
struct Met {
    refusals: [u32; 13],
    found_behind_11: u32,
    run_out: u32,
}

impl Met {
    fn take_in(&mut self, outcomes: &[Six]) {
        let at = |number: u32| outcomes.iter().position(|six| six[0] == number);
        outcomes
            .iter()
            .for_each(|six| self.refusals[six[0] as usize] += 1);
        let behind = &outcomes[at(11).unwrap_or(outcomes.len())..];
        self.found_behind_11 += u32::from(behind.iter().any(|six| six[1] == 1));
        self.run_out += u32::from(at(12).is_some_and(|place| place > 0));
    }
}

#[test]
fn on_any_record() {
    let mut generator = Generator::new(26);
    let mut met = Met::default();
    for _ in 0..4000 {
        let state = some_state(&mut generator);
        let mut words = vec![0; RECORD_WORDS];
        state.write(&mut words);
        let numbers = some_numbers(&mut generator, &state);
        let hub = generator.below(state.n() + 1);
        let mut lent = Lent::new(&words, PLACE * numbers.len() + generator.below(9) as usize);
        let (outcomes, words, tally) = by_steps(&lent, hub, &numbers);
        assert_eq!(lent.route(hub, &numbers), Ok(()));
        assert_eq!(lent.outcomes(numbers.len()), outcomes);
        assert_eq!((lent.words, lent.tally), (words, tally));
        met.take_in(&outcomes);
    }
    for number in [0, 4, 5, 11, 12] {
        assert!(met.refusals[number] > 1000, "{number}: {:?}", met.refusals);
    }
    assert_eq!(met.refusals.iter().filter(|&&count| count > 0).count(), 5);
    assert!(met.found_behind_11 > 100 && met.run_out > 100);
}

/// On records that are not well formed the call is refused as a whole, where
/// each step of the list would be.
#[test]
fn on_damaged_records() {
    let mut generator = Generator::new(27);
    let mut damaged = 0;
    for _ in 0..2000 {
        let state = any_state(&mut generator);
        let mut words = vec![0; RECORD_WORDS];
        state.write(&mut words);
        let place = [4, 4 + 7 * state.n(), 500][generator.below(3) as usize];
        words[generator.below(place) as usize] = generator.below(300);
        let numbers = some_numbers(&mut generator, &state);
        let hub = generator.below(state.n());
        let mut lent = Lent::new(&words, PLACE * numbers.len());
        let (outcomes, words, tally) = by_steps(&lent, hub, &numbers);
        if lent.route(hub, &numbers) == Err(2) {
            damaged += 1;
            assert!(outcomes.iter().all(|six| *six == [2, 0, 0, 0, 0, 0]));
            continue;
        }
        assert_eq!(lent.outcomes(numbers.len()), outcomes);
        assert_eq!((lent.words, lent.tally), (words, tally));
    }
    assert!(damaged > 500, "{damaged} of 2000 damaged");
}
