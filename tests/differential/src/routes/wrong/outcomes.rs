//! Outcomes that say something else than the asks came to.

use ring_model::answer::FOUND;
use ring_model::bytes::{NO_REFUSAL, OUTCOME_BYTES};
use ring_model::refusal::{MESSAGES_FULL, NOT_IN_RING, NO_SUCH_NODE, TICKETS_USED_UP};

use super::{turn, Wrong, SELDOM};
use crate::calls::{put_word, word_at};
use crate::engine::route;
use crate::faults::one_in;

/// The wrong routes.
pub const ROUTES: [Wrong; 17] = [
    ("outcomes in reverse", "routes", |words, hub, numbers, outcomes| {
        all(words, hub, numbers, outcomes, |written, _| turn(written))
    }),
    ("every outcome is the first one's", "routes", |words, hub, numbers, outcomes| {
        all(words, hub, numbers, outcomes, |written, _| {
            let first = written.get(..OUTCOME_BYTES).map_or(Vec::new(), <[u8]>::to_vec);
            written.chunks_exact_mut(OUTCOME_BYTES).for_each(|place| place.copy_from_slice(&first));
        })
    }),
    ("a refused outcome keeps old words", "routes", |words, hub, numbers, outcomes| {
        each(words, hub, numbers, outcomes, |place, before| {
            if word_at(place, 0) != NO_REFUSAL {
                place[4..].copy_from_slice(&before[4..]);
            }
        })
    }),
    ("a refused outcome keeps its last old word", "any_routes", |words, hub, numbers, outcomes| {
        each(words, hub, numbers, outcomes, |place, before| {
            if word_at(place, 0) != NO_REFUSAL {
                place[20..].copy_from_slice(&before[20..]);
            }
        })
    }),
    ("a quiet outcome keeps old words", "routes", |words, hub, numbers, outcomes| {
        each(words, hub, numbers, outcomes, |place, before| {
            if word_at(place, 0) == NO_REFUSAL && word_at(place, 1) == 0 {
                place[8..].copy_from_slice(&before[8..]);
            }
        })
    }),
    ("an accepted outcome keeps its first old word", "routes", |words, hub, numbers, outcomes| {
        each(words, hub, numbers, outcomes, |place, before| {
            if word_at(place, 0) == NO_REFUSAL {
                place[..4].copy_from_slice(&before[..4]);
            }
        })
    }),
    (
        "a refused outcome has the fields of the one before",
        "routes",
        |words, hub, numbers, outcomes| {
            all(words, hub, numbers, outcomes, |written, _| {
                let mut fields = [0; 20];
                for place in written.chunks_exact_mut(OUTCOME_BYTES) {
                    match word_at(place, 0) {
                        NO_REFUSAL => fields.copy_from_slice(&place[4..]),
                        _ => place[4..].copy_from_slice(&fields),
                    }
                }
            })
        },
    ),
    ("the refusal number stands last", "routes", |words, hub, numbers, outcomes| {
        each(words, hub, numbers, outcomes, |place, _| place.rotate_left(4))
    }),
    ("the last outcome is not written", "routes", |words, hub, numbers, outcomes| {
        all(words, hub, numbers, outcomes, |written, before| {
            let last = written.len().saturating_sub(OUTCOME_BYTES);
            written[last..].copy_from_slice(&before[last..]);
        })
    }),
    ("all tickets are the first one's", "routes", |words, hub, numbers, outcomes| {
        all(words, hub, numbers, outcomes, |written, _| {
            let mut first = None;
            let found = |place: &&mut [u8]| word_at(place, 1) == FOUND;
            for place in written.chunks_exact_mut(OUTCOME_BYTES).filter(found) {
                let ticket = *first.get_or_insert(word_at(place, 4));
                put_word(place, 4, ticket);
            }
        })
    }),
    ("a question found at once has a hop", "routes", |words, hub, numbers, outcomes| {
        each(words, hub, numbers, outcomes, |place, _| {
            let hops = u32::from(word_at(place, 1) == FOUND);
            put_word(place, 5, hops);
        })
    }),
    ("a question that is sent on names its number", "routes", |words, hub, numbers, outcomes| {
        all(words, hub, numbers, outcomes, |written, _| {
            let places = written.chunks_exact_mut(OUTCOME_BYTES);
            for (place, number) in places.zip(numbers.chunks_exact(4)) {
                if word_at(place, 0) == NO_REFUSAL {
                    place[12..16].copy_from_slice(number);
                }
            }
        })
    }),
    ("5 where it should be 4", "routes", |words, hub, numbers, outcomes| {
        instead(NO_SUCH_NODE, NOT_IN_RING, words, hub, numbers, outcomes)
    }),
    ("12 is told as quiet", "any_routes", |words, hub, numbers, outcomes| {
        instead(TICKETS_USED_UP, NO_REFUSAL, words, hub, numbers, outcomes)
    }),
    ("11 where it should be 12", "any_routes", |words, hub, numbers, outcomes| {
        instead(TICKETS_USED_UP, MESSAGES_FULL, words, hub, numbers, outcomes)
    }),
    ("11 is told as quiet", "routes", |words, hub, numbers, outcomes| {
        instead(MESSAGES_FULL, NO_REFUSAL, words, hub, numbers, outcomes)
    }),
    ("an outcome's last byte differs, seldom", "routes", |words, hub, numbers, outcomes| {
        all(words, hub, numbers, outcomes, |written, _| match written.last_mut() {
            Some(byte) if one_in(SELDOM) => *byte ^= 1,
            _ => {}
        })
    }),
];

/// A route whose outcomes are changed, if it is not refused: what was written, and what stood there
/// before.
fn all(
    words: &mut [u8],
    hub: u32,
    numbers: &[u8],
    outcomes: &mut [u8],
    change: impl FnOnce(&mut [u8], &[u8]),
) -> u32 {
    let before = outcomes.to_vec();
    let code = route(words, hub, numbers, outcomes);
    if code == NO_REFUSAL {
        let length = OUTCOME_BYTES * (numbers.len() / 4);
        change(&mut outcomes[..length], &before[..length]);
    }
    code
}

/// The same, each outcome for itself.
fn each(
    words: &mut [u8],
    hub: u32,
    numbers: &[u8],
    outcomes: &mut [u8],
    change: impl Fn(&mut [u8], &[u8]),
) -> u32 {
    all(words, hub, numbers, outcomes, |written, before| {
        let places = written.chunks_exact_mut(OUTCOME_BYTES);
        places.zip(before.chunks_exact(OUTCOME_BYTES)).for_each(|(one, old)| change(one, old));
    })
}

/// A route that tells another number for this one.
fn instead(
    number: u32,
    other: u32,
    words: &mut [u8],
    hub: u32,
    numbers: &[u8],
    outcomes: &mut [u8],
) -> u32 {
    each(words, hub, numbers, outcomes, |place, _| {
        if word_at(place, 0) == number {
            put_word(place, 0, other);
        }
    })
}
