//! Rows and messages tested by ranges: each has a shape, picked from a table
//! by its state or kind, and the words of a shape are tested side by side.
//!
//! This is laid out by hand for the machine's registers. It shows what such a
//! layout brings.

use crate::check::Check;
use crate::kinds;
use crate::lanes::{any, LANES};
use crate::record::{INSIDE, LEAVING, MESSAGE_WORDS, MOST_HOPS, NONE, OUTSIDE, ROW_WORDS};
use crate::shapes::{Shape, ANY, ONE, ZERO};
use crate::word::Word;

/// The test by ranges.
pub struct Ranges;

impl Check for Ranges {
    fn rows_wrong<W: Word>(rows: &[W], n: u32) -> bool {
        let shapes = row_shapes(n);
        let mut faults = [0; LANES];
        for row in rows.chunks_exact(ROW_WORDS) {
            let (state, flag) = (row[1].get(), row[3].get());
            let flagged = 3 * u32::from(flag == 1);
            shapes[(state.wrapping_add(flagged) & 7) as usize].test(row, &mut faults);
        }
        any(&faults)
    }

    fn messages_wrong<W: Word>(messages: &[W], n: u32, asked: u32) -> bool {
        let shapes = message_shapes(n, asked);
        let mut faults = [0; LANES];
        for message in messages.chunks_exact(MESSAGE_WORDS) {
            let kind = message[0].get() & 15;
            let shape = SHAPE_OF_KIND[kind as usize] & 3;
            shapes[shape as usize].test(message, &mut faults);
        }
        any(&faults)
    }

    fn any_set<W: Word>(words: &[W]) -> bool {
        let blocks = words.chunks_exact(BLOCK);
        let rest = blocks.remainder().iter();
        let rest = rest.fold(0, |merged, word| merged | word.get());
        let mut merged = [0; BLOCK];
        for block in blocks {
            for lane in 0..BLOCK {
                merged[lane] |= block[lane].get();
            }
        }
        rest != 0 || any(&merged)
    }
}

/// Words of the unused part that are merged in one round.
const BLOCK: usize = 16;

/// The shape of a row: by state, and for state 2 by flag. A wrong state or
/// flag picks a shape that has no place for it.
fn row_shapes(n: u32) -> [Shape; 8] {
    let none = (NONE, NONE);
    let hub = (0, n - 1);
    let state = (OUTSIDE, LEAVING);
    let outside = Shape::new([ANY, state, ZERO, ZERO, none, none, none]);
    let joining = Shape::new([ANY, state, ONE, ZERO, none, none, none]);
    let inside = Shape::new([ANY, state, (0, 1), ZERO, hub, hub, none]);
    let flagged = Shape::new([ANY, (INSIDE, INSIDE), ONE, ONE, hub, hub, hub]);
    let going = Shape::new([ANY, state, ONE, ZERO, hub, hub, none]);
    [
        outside, joining, inside, going, going, flagged, flagged, flagged,
    ]
}

/// The shapes of a message: LOOKUP, those that name a hub, the others.
fn message_shapes(n: u32, asked: u32) -> [Shape; 4] {
    let hub = (0, n - 1);
    let kind = (kinds::LOOKUP, kinds::LEAVEDONE);
    // Before the first ask there is no ticket, and so no LOOKUP.
    let asked_kind = if asked == 0 {
        (kinds::JOIN, kinds::LEAVEDONE)
    } else {
        kind
    };
    let ticket = (0, asked.saturating_sub(1));
    let lookup = Shape::new([asked_kind, hub, hub, ANY, ticket, (0, MOST_HOPS)]);
    let naming = Shape::new([kind, hub, hub, hub, ZERO, ZERO]);
    let bare = Shape::new([kind, hub, hub, ZERO, ZERO, ZERO]);
    [bare, lookup, naming, bare]
}

/// Which of the shapes each kind has. No kind above 14 passes the test of any.
const SHAPE_OF_KIND: [u8; 16] = [0, 1, 2, 0, 2, 0, 2, 0, 0, 0, 0, 2, 0, 0, 0, 0];
