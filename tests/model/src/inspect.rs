//! The whole program `inspect`: a ring, line by line, in words
//! (docs/INSPECT.md).
//!
//! It adds no rule to document 01: each line is a call of the model, and its
//! answer is told in words.

use std::io::{self, BufRead, Write};

use crate::answer::Answer;
use crate::frames::FOUNDER;
use crate::lines;
use crate::queries::{hub_row, owner, roll_call};
use crate::record::{State, RECORD_WORDS};
use crate::step::fresh_by;
use crate::tally::{step_tallied, Tally};

mod request;
mod text;

use request::Request;

pub use request::{KEPT_WORDS, MOST_PLACES};
pub use text::{refusal_name, UNREADABLE};

/// What the program keeps from line to line.
#[derive(Clone, Debug)]
pub struct Inspect {
    words: Vec<u32>,
    lent: usize,
    tally: Tally,
}

/// 'At first all words and counts are 0, and 1,988 words are lent.'
impl Default for Inspect {
    fn default() -> Inspect {
        Inspect {
            words: vec![0; KEPT_WORDS],
            lent: RECORD_WORDS,
            tally: Tally::default(),
        }
    }
}

impl Inspect {
    /// All words, lent or not.
    pub fn words(&self) -> &[u32] {
        &self.words
    }

    /// The words that are lent to a call.
    pub fn lent(&self) -> &[u32] {
        &self.words[..self.lent]
    }

    /// The counts.
    pub fn tally(&self) -> &Tally {
        &self.tally
    }

    /// Acts on one line, given without its LF, and returns what is printed
    /// for it, without the last LF.
    pub fn answer_line(&mut self, line: &[u8]) -> String {
        match request::read(line) {
            Request::Found(identifiers) => {
                let words = &mut self.words[..self.lent];
                let founded = fresh_by(words, &identifiers, FOUNDER);
                text::outcome(&founded.map(|()| Answer::quiet()))
            }
            Request::Step(operation, x, y) => {
                let words = &mut self.words[..self.lent];
                text::outcome(&step_tallied(words, operation, x, y, &mut self.tally))
            }
            Request::Row(hub) => text::row(hub, hub_row(self.lent(), hub)),
            Request::Roll(hub, places) => self.roll(hub, places),
            Request::Owner(number) => text::owner(number, owner(self.lent(), number)),
            Request::Waiting => text::waiting(&State::read(self.lent())),
            Request::Counts => text::counts(&self.tally),
            Request::Lend(words) => {
                self.lent = words;
                format!("words lent: {words}")
            }
            Request::Word(place, value) => {
                self.words[place] = value;
                format!("word {place}: {value}")
            }
            Request::Count(place, value) => {
                self.tally.counts[place] = value;
                format!("count {place}: {value}")
            }
            Request::Unreadable => UNREADABLE.to_string(),
        }
    }

    /// The roll call, into an output that holds no hub number before it.
    fn roll(&self, hub: u32, places: usize) -> String {
        let mut output = vec![text::UNWRITTEN; places];
        let length = roll_call(self.lent(), hub, &mut output);
        text::roll(hub, length, &output)
    }
}

/// Answers every line of the input.
pub fn run(input: impl BufRead, output: impl Write) -> io::Result<()> {
    let mut inspect = Inspect::default();
    lines::run(input, output, |line| inspect.answer_line(line))
}
