//! A route's questions in one call (document 02, 2026-06): the questions of
//! the call, its places and outcomes, the tally, and asking one by one.

#[path = "routes/bytes.rs"]
mod bytes;
#[path = "routes/counted.rs"]
mod counted;
#[path = "routes/one_by_one.rs"]
mod one_by_one;
#[path = "routes/outcomes.rs"]
mod outcomes;
#[path = "routes/places.rs"]
mod places;
#[path = "routes/questions.rs"]
mod questions;
#[path = "routes/run_out.rs"]
mod run_out;
#[path = "routes/watched.rs"]
mod watched;

use ring_model::{route, route_tallied, Tally};

use crate::common::{inside, outside, record};

/// Most numbers of a list, and words of an outcome.
const MOST: usize = 64;
const PLACE: usize = 6;
/// What every word of the places holds before a call.
const BEFORE: u32 = 7777;

/// An outcome as it stands in its place.
type Six = [u32; PLACE];

/// A found answer of the hub that was asked.
fn found(hub: u32, number: u32, ticket: u32) -> Six {
    [0, 1, hub, number, ticket, 0]
}

/// A question that was sent on.
const QUIET: Six = [0; PLACE];

/// A refused question.
fn no(number: u32) -> Six {
    [number, 0, 0, 0, 0, 0]
}

/// What is lent to a route.
#[derive(Clone, Debug, PartialEq)]
struct Lent {
    words: Vec<u32>,
    outcomes: Vec<u32>,
    tally: Tally,
}

impl Lent {
    /// A record, so many words for outcomes, and a tally in which each count
    /// is another.
    fn new(words: &[u32], room: usize) -> Lent {
        Lent {
            words: words.to_vec(),
            outcomes: vec![BEFORE; room],
            tally: Tally {
                counts: [10, 11, 12, 13, 14, 15, 16, 17, 18],
            },
        }
    }

    /// A route with a tally. Without one it must come to the same, and a
    /// refused one must change nothing at all.
    fn route(&mut self, hub: u32, numbers: &[u32]) -> Result<(), u32> {
        let before = self.clone();
        let mut plain = self.clone();
        let without = route(&mut plain.words, hub, numbers, &mut plain.outcomes);
        let Lent {
            words,
            outcomes,
            tally,
        } = self;
        let outcome = route_tallied(words, hub, numbers, outcomes, tally);
        assert_eq!(without, outcome);
        assert_eq!((&plain.words, &plain.outcomes), (&*words, &*outcomes));
        assert!(outcome.is_ok() || *self == before, "{outcome:?}");
        outcome
    }

    /// The first so many outcomes. The words behind them are as they were.
    fn outcomes(&self, count: usize) -> Vec<Six> {
        let (written, behind) = self.outcomes.split_at(PLACE * count);
        assert!(behind.iter().all(|&word| word == BEFORE));
        let six = |place: &[u32]| place.try_into().expect("six words");
        written.chunks_exact(PLACE).map(six).collect()
    }
}

/// An accepted route with just the room that it needs: its outcomes, and the
/// record that it leaves.
fn accepted(words: &[u32], hub: u32, numbers: &[u32]) -> (Vec<Six>, Vec<u32>) {
    let mut lent = Lent::new(words, PLACE * numbers.len());
    assert_eq!(lent.route(hub, numbers), Ok(()));
    (lent.outcomes(numbers.len()), lent.words)
}

/// Hubs 0 (100) and 1 (200) at rest, hub 2 (300) outside.
fn two_at_rest() -> Vec<u32> {
    let rows = [inside(100, 1, 1), inside(200, 0, 0), outside(300)];
    record(0, &rows, &[])
}
