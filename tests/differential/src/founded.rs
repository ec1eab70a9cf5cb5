//! What the fresh calls have reached, by their form.

use ring_model::bytes::NO_REFUSAL;
use ring_model::frames::{decode, Frame, FOUNDER};
use ring_model::step::smallest;

use crate::form::Form;
use crate::reached::{add_all, by_number, Cells};

/// Which numbers each form can give; 0 stands for no refusal.
const OF_FRESH: [usize; 4] = [0, 1, 13, 14];
/// A founder that is none of the hubs is refused by 18, or by a question before it.
const OF_NONE: [usize; 4] = [1, 13, 14, 18];

/// Counts by refusal number.
type Numbers = [u64; 19];

/// Counts of foundings.
#[derive(Clone, Default)]
pub struct Founded {
    fresh: Numbers,
    fresh_by: Numbers,
    none: Numbers,
    /// Accepted ones by the founder's place: the first hub, one between, the last of several.
    smallest_at: [u64; 3],
    named_at: [u64; 3],
    /// Frames that `ringrun` accepts in which another hub than the first has the smallest
    /// identifier.
    frames: u64,
}

impl Founded {
    /// Counts a fresh call with these identifiers: its number, and who founds.
    pub fn take_in(&mut self, form: Form, code: u32, identifiers: &[u32]) {
        let (founder, count) = (form.founder(identifiers) as usize, identifiers.len());
        let (numbers, places) = match form {
            Form::Smallest => (&mut self.fresh, &mut self.smallest_at),
            Form::By(_) if founder < count => (&mut self.fresh_by, &mut self.named_at),
            Form::By(_) => (&mut self.none, &mut self.named_at),
        };
        if let Some(number) = numbers.get_mut(code as usize) {
            *number += 1;
        }
        if code == NO_REFUSAL {
            places[place(founder, count)] += 1;
        }
    }

    /// Counts a line of `ringrun` with its answer, if it is such a frame.
    pub fn frame(&mut self, line: &[u8], answer: &str) {
        let accepted = !answer.starts_with("EE");
        self.frames += u64::from(accepted && passes_over_the_smallest(&decode(line)));
    }

    /// Adds another thread's counts.
    pub fn add(&mut self, other: &Founded) {
        add_all(&mut self.fresh, &other.fresh);
        add_all(&mut self.fresh_by, &other.fresh_by);
        add_all(&mut self.none, &other.none);
        add_all(&mut self.smallest_at, &other.smallest_at);
        add_all(&mut self.named_at, &other.named_at);
        self.frames += other.frames;
    }

    /// The table: names and counts.
    pub fn rows(&self) -> Vec<(&'static str, Cells)> {
        let at = |counts: &[u64]| by_number(&[0, 1, 2], counts);
        vec![
            ("fresh, 0 or refused by", by_number(&OF_FRESH, &self.fresh)),
            ("fresh by a hub that is named, 0 or refused by", by_number(&OF_FRESH, &self.fresh_by)),
            ("fresh by a founder that is none, refused by", by_number(&OF_NONE, &self.none)),
            ("founded by the smallest: first 0, between 1, last 2", at(&self.smallest_at)),
            ("founded by the one named: first 0, between 1, last 2", at(&self.named_at)),
            ("ringrun: foundings whose first hub is not the smallest", vec![(None, self.frames)]),
        ]
    }
}

/// Whether a frame founds by a hub that has not the smallest identifier.
pub fn passes_over_the_smallest(frame: &Frame) -> bool {
    matches!(frame, Frame::Found(identifiers) if smallest(identifiers) != FOUNDER)
}

/// 0 for the first place of a list, 2 for the last of several, 1 for one between.
fn place(founder: usize, count: usize) -> usize {
    match founder {
        0 => 0,
        last if last + 1 == count => 2,
        _ => 1,
    }
}
