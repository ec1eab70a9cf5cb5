//! Records that are left otherwise than the asks leave them one by one.

use ring_model::bytes::NO_REFUSAL;
use ring_model::record::{message_start, MAX_MESSAGES, MESSAGE_WORDS};

use super::{numbers_of, Wrong, SELDOM};
use crate::calls::{put_word, word_at, RECORD_BYTES};
use crate::engine::route;
use crate::faults::one_in;

/// The wrong routes.
pub const ROUTES: [Wrong; 5] = [
    ("the record is not written", "routes", |words, hub, numbers, outcomes| {
        route(&mut words.to_vec(), hub, numbers, outcomes)
    }),
    ("a refused question takes back all", "routes", |words, hub, numbers, outcomes| {
        let before = words.to_vec();
        let code = route(words, hub, numbers, outcomes);
        if code == NO_REFUSAL && numbers_of(outcomes, numbers).any(|one| one != NO_REFUSAL) {
            words.copy_from_slice(&before);
        }
        code
    }),
    (
        "questions that are sent on wait in another order",
        "routes",
        |words, hub, numbers, outcomes| {
            let waited = waiting(words);
            let code = route(words, hub, numbers, outcomes);
            if code == NO_REFUSAL {
                let now = waiting(words);
                let [first, behind] = [waited, now].map(|m| 4 * message_start(m.min(MAX_MESSAGES)));
                let sent: Vec<u8> = words[first..behind]
                    .rchunks_exact(4 * MESSAGE_WORDS)
                    .flatten()
                    .copied()
                    .collect();
                words[first..behind].copy_from_slice(&sent);
            }
            code
        },
    ),
    ("a question that is sent on is lost, with cards", "cards", |words, hub, numbers, outcomes| {
        let waited = waiting(words);
        let code = route(words, hub, numbers, outcomes);
        let now = waiting(words);
        if code == NO_REFUSAL && now > waited {
            put_word(words, 2, now as u32 - 1);
            (0..MESSAGE_WORDS).for_each(|word| put_word(words, message_start(now - 1) + word, 0));
        }
        code
    }),
    (
        "a byte of the record differs, with cards, seldom",
        "cards",
        |words, hub, numbers, outcomes| {
            let code = route(words, hub, numbers, outcomes);
            if code == NO_REFUSAL && one_in(SELDOM) {
                words[RECORD_BYTES - 1] ^= 1;
            }
            code
        },
    ),
];

/// How many messages wait, as the record has it.
fn waiting(words: &[u8]) -> usize {
    words.get(8..12).map_or(0, |_| word_at(words, 2) as usize)
}
