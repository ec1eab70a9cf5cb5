//! The rings beside which cards are measured, with a slice that has no card
//! yet: made by the plain model, by calls alone.

use ring_model::cards::{fresh_cards, step_cards, CARD_SLICE_WORDS};
use ring_model::record::State;
use ring_model::RECORD_WORDS;

use super::contestants::Call;
use crate::records::{identifier, identifiers};

const ASK: u32 = 0;
const JOIN: u32 = 1;
const LEAVE: u32 = 2;
const DELIVER: u32 = 3;

/// A record and its card slice.
pub struct Ring {
    pub words: Vec<u32>,
    pub book: Vec<u32>,
}

/// The step that is measured, by what it answers.
#[derive(Clone, Copy, Debug, PartialEq, Eq)]
pub enum Step {
    Found,
    Entered,
    Gone,
}

impl Step {
    /// Its name in the table.
    pub fn name(self) -> &'static str {
        match self {
            Step::Found => "ask, answered at once",
            Step::Entered => "deliver, entered",
            Step::Gone => "deliver, gone",
        }
    }

    /// A ring of n hubs on which it can be made, and the call.
    pub fn on(self, n: u32) -> (Ring, Call) {
        let (hub, next) = (n / 2, n / 2 + 1);
        let mut ring = Ring::inside(n, self == Step::Entered);
        let call = match self {
            Step::Found => (ASK, hub, identifier(n, hub)),
            Step::Entered => {
                ring.step(JOIN, hub, next);
                (DELIVER, hub, next)
            }
            Step::Gone => {
                ring.step(LEAVE, hub, 0);
                ring.step(DELIVER, hub, next);
                ring.step(DELIVER, next, hub);
                (DELIVER, hub, next)
            }
        };
        (ring, Call::Step(call.0, call.1, call.2))
    }
}

impl Ring {
    /// n hubs inside, at rest; or all of them but the one in the middle.
    pub fn inside(n: u32, but_one: bool) -> Ring {
        let mut ring = Ring {
            words: vec![0; RECORD_WORDS],
            book: vec![0; CARD_SLICE_WORDS],
        };
        let names = identifiers(n);
        fresh_cards(&mut ring.words, &mut ring.book, &names).expect("fresh is accepted");
        for hub in (1..n).filter(|&hub| !but_one || hub != n / 2) {
            ring.step(JOIN, hub, 0);
            while let Some((from, to)) = ring.oldest() {
                ring.step(DELIVER, from, to);
            }
        }
        ring
    }

    fn step(&mut self, operation: u32, x: u32, y: u32) {
        step_cards(&mut self.words, &mut self.book, operation, x, y).expect("it is accepted");
    }

    /// The link of the oldest message.
    fn oldest(&self) -> Option<(u32, u32)> {
        let state = State::read(&self.words).expect("the record reads");
        let oldest = state.messages.first()?;
        Some((oldest.from, oldest.to))
    }
}
