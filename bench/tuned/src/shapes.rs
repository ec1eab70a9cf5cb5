//! What the words of a row or a message may be, as ranges that are tested side
//! by side.
//!
//! A row has seven words and a message six: both are read as two groups of
//! four that overlap, so that each group is one load of a machine's register.

use crate::lanes::{mask, GROUP, LANES};
use crate::word::Word;

/// The failures of each lane, merged: all bits set, or none.
pub(crate) type Faults = [u32; LANES];

/// From where to where a word may be.
pub(crate) type Range = (u32, u32);
/// Any number.
pub(crate) const ANY: Range = (0, u32::MAX);
/// Nothing but 0.
pub(crate) const ZERO: Range = (0, 0);
/// Nothing but 1.
pub(crate) const ONE: Range = (1, 1);

/// One range a lane. Its least value is subtracted, and what is left compared
/// with the width. Both are shifted by half the circle, which makes it a
/// comparison of signed numbers: the plain x86-64 has no other for registers.
#[derive(Clone, Copy)]
pub(crate) struct Shape {
    least: [u32; LANES],
    width: [i32; LANES],
}

const HALF: u32 = 1 << 31;

impl Shape {
    /// The shape of `N` words, of which the last four are the second group.
    pub fn new<const N: usize>(words: [Range; N]) -> Shape {
        let mut shape = Shape {
            least: [0; LANES],
            width: [0; LANES],
        };
        for lane in 0..LANES {
            let place = if lane < GROUP { lane } else { N - LANES + lane };
            let (least, most) = words[place];
            shape.least[lane] = least ^ HALF;
            shape.width[lane] = ((most - least) ^ HALF) as i32;
        }
        shape
    }

    /// Merges in the failures of these words.
    #[inline]
    pub fn test<W: Word>(&self, words: &[W], faults: &mut Faults) {
        let (first, last) = (&words[..GROUP], &words[words.len() - GROUP..]);
        for lane in 0..GROUP {
            faults[lane] |= self.fails(lane, first[lane].get());
            faults[GROUP + lane] |= self.fails(GROUP + lane, last[lane].get());
        }
    }

    #[inline]
    fn fails(&self, lane: usize, word: u32) -> u32 {
        mask(word.wrapping_sub(self.least[lane]) as i32 > self.width[lane])
    }
}
