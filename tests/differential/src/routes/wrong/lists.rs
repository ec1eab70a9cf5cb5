//! Lists that are asked in another way than one by one.

use ring_model::bytes::NO_REFUSAL;
use ring_model::refusal::{MESSAGES_FULL, NO_SUCH_NODE, TICKETS_USED_UP};

use super::{ask, by_steps, numbers_of, questions, turn, Wrong};
use crate::calls::{put_word, word_at};
use crate::engine::route;

/// The wrong routes.
pub const ROUTES: [Wrong; 16] = [
    ("the asks end at the first refusal", "routes", |words, hub, numbers, outcomes| {
        let asked = up_to_a_refusal(words, hub, numbers, outcomes);
        route(words, hub, &numbers[..asked], outcomes)
    }),
    (
        "the asks end at the first refusal, on any record",
        "any_routes",
        |words, hub, numbers, outcomes| {
            let asked = up_to_a_refusal(words, hub, numbers, outcomes);
            route(words, hub, &numbers[..asked], outcomes)
        },
    ),
    ("behind a refusal all is refused", "routes", |words, hub, numbers, outcomes| {
        let mut refused = NO_REFUSAL;
        by_steps(words, hub, numbers, outcomes, |words, hub, number, out| {
            if refused == NO_REFUSAL {
                refused = ask(words, hub, number, out);
            }
            refused
        })
    }),
    ("a full record refuses what the hub owns", "routes", |words, hub, numbers, outcomes| {
        by_steps(words, hub, numbers, outcomes, |words, hub, number, out| {
            match (word_at(words, 2), ask(&mut words.to_vec(), hub, number, &mut out.to_vec())) {
                (256, NO_REFUSAL) => MESSAGES_FULL,
                _ => ask(words, hub, number, out),
            }
        })
    }),
    ("a list that does not fit sends nothing on", "any_routes", |words, hub, numbers, outcomes| {
        let mut came = outcomes.to_vec();
        let code = route(&mut words.to_vec(), hub, numbers, &mut came);
        let refused =
            code == NO_REFUSAL && numbers_of(&came, numbers).any(|one| one == MESSAGES_FULL);
        by_steps(words, hub, numbers, outcomes, |words, hub, number, out| {
            let waiting = word_at(words, 2);
            let mut tried = words.to_vec();
            let code = ask(&mut tried, hub, number, out);
            if refused && word_at(&tried, 2) > waiting {
                return MESSAGES_FULL;
            }
            words.copy_from_slice(&tried);
            code
        })
    }),
    ("a refused question takes a ticket", "routes", |words, hub, numbers, outcomes| {
        by_steps(words, hub, numbers, outcomes, |words, hub, number, out| {
            let code = ask(words, hub, number, out);
            let asked = word_at(words, 3).saturating_add(u32::from(code != NO_REFUSAL));
            put_word(words, 3, asked);
            code
        })
    }),
    ("a question that is sent on takes no ticket", "routes", |words, hub, numbers, outcomes| {
        by_steps(words, hub, numbers, outcomes, |words, hub, number, out| {
            let (waiting, asked) = (word_at(words, 2), word_at(words, 3));
            let code = ask(words, hub, number, out);
            if word_at(words, 2) > waiting && waiting > 0 {
                put_word(words, 3, asked);
            }
            code
        })
    }),
    ("the hub of the first answer is asked on", "routes", |words, hub, numbers, outcomes| {
        let mut next = None;
        by_steps(words, hub, numbers, outcomes, |words, hub, number, out| {
            let code = ask(words, next.unwrap_or(hub), number, out);
            next = next.or((code == NO_REFUSAL).then(|| word_at(out, 1)));
            code
        })
    }),
    ("the list is asked from its end", "routes", |words, hub, numbers, outcomes| {
        let whole = numbers.chunks_exact(4).rev().flatten().copied();
        let turned: Vec<u8> = whole.collect();
        let code = route(words, hub, &turned, outcomes);
        if code == NO_REFUSAL {
            turn(&mut outcomes[..6 * turned.len()]);
        }
        code
    }),
    ("the last number is not asked", "routes", |words, hub, numbers, outcomes| {
        match questions(words, hub, numbers, outcomes) {
            NO_REFUSAL => route(words, hub, &numbers[..numbers.len().saturating_sub(4)], outcomes),
            code => code,
        }
    }),
    ("a number that stands twice is asked once", "routes", |words, hub, numbers, outcomes| {
        let mut met: Vec<(u32, u32, Vec<u8>)> = Vec::new();
        by_steps(words, hub, numbers, outcomes, |words, hub, number, out| {
            if let Some((_, code, came)) = met.iter().find(|one| one.0 == number) {
                out.copy_from_slice(came);
                return *code;
            }
            let code = ask(words, hub, number, out);
            met.push((number, code, out.to_vec()));
            code
        })
    }),
    ("the hub is read as a byte", "routes", |words, hub, numbers, outcomes| {
        route(words, hub & 0xFF, numbers, outcomes)
    }),
    ("a hub that is none is taken for another", "routes", |words, hub, numbers, outcomes| {
        by_steps(words, hub, numbers, outcomes, |words, hub, number, out| match hub < 64 {
            true => ask(words, hub % word_at(words, 1), number, out),
            false => NO_SUCH_NODE,
        })
    }),
    ("a number's bytes are turned", "routes", |words, hub, numbers, outcomes| {
        let turned: Vec<u8> =
            numbers.chunks(4).flat_map(|four| four.iter().rev()).copied().collect();
        route(words, hub, &turned, outcomes)
    }),
    ("a 256th message does not go in", "routes", |words, hub, numbers, outcomes| {
        by_steps(words, hub, numbers, outcomes, |words, hub, number, out| {
            let mut tried = words.to_vec();
            let code = ask(&mut tried, hub, number, &mut out.to_vec());
            match (word_at(words, 2), word_at(&tried, 2)) {
                (255, 256) => MESSAGES_FULL,
                _ if code != NO_REFUSAL => code,
                _ => ask(words, hub, number, out),
            }
        })
    }),
    ("the last ticket is not given", "any_routes", |words, hub, numbers, outcomes| {
        by_steps(words, hub, numbers, outcomes, |words, hub, number, out| {
            let left = u32::MAX - word_at(words, 3);
            match (left, ask(&mut words.to_vec(), hub, number, &mut out.to_vec())) {
                (1, NO_REFUSAL) => TICKETS_USED_UP,
                _ => ask(words, hub, number, out),
            }
        })
    }),
];

/// Bytes of the list up to the first number that is refused, that one among them; all, if none is.
fn up_to_a_refusal(words: &[u8], hub: u32, numbers: &[u8], outcomes: &[u8]) -> usize {
    let mut came = outcomes.to_vec();
    let code = route(&mut words.to_vec(), hub, numbers, &mut came);
    let refused = numbers_of(&came, numbers).position(|one| one != NO_REFUSAL);
    match (code, refused) {
        (NO_REFUSAL, Some(place)) => 4 * (place + 1),
        _ => numbers.len(),
    }
}
