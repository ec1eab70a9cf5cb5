//! Faults planted in front of the engine's step.

use ring_model::bytes::{ANSWER_BYTES, NO_REFUSAL};
use ring_model::command::DELIVER;
use ring_model::kinds::LOOKUP;
use ring_model::record::message_start;
use ring_model::refusal::{
    LINK_EMPTY, NOT_AS_REQUIRED, NOT_WELL_FORMED, OUTPUT_SHORT, RECORD_SHORT,
};

use crate::calls::{answer_of, put_word, word_at, RECORD_BYTES};
use crate::engine;
use crate::faults::seldom;

type Step = fn(&mut [u8], u32, u32, u32, &mut [u8]) -> u32;

/// Wrong steps: what is wrong, the part that must see it, and the step.
pub const STEPS: [(&str, &str, Step); 12] = [
    ("an answer's last byte differs, seldom", "runs", answer_differs),
    ("a byte of the record differs, seldom", "runs", record_differs),
    ("a byte behind the record is written, seldom", "runs", writes_behind),
    ("a refused step writes its output, seldom", "runs", writes_when_refused),
    ("an accepted step writes no answer, seldom", "runs", writes_no_answer),
    ("a message that waits is refused, seldom", "runs", refuses_delivery),
    ("9 where it should be 10", "unreachable", link_empty),
    ("hops go on behind 65535", "unreachable", hops_go_on),
    ("a message to itself counts as a hop", "runs", own_message_counts),
    ("no link counts as a hop", "runs", no_link_counts),
    ("the record's last word is not looked at", "damaged", last_word_unseen),
    ("17 is asked after 1", "lengths", output_asked_late),
];

fn answer_differs(words: &mut [u8], operation: u32, x: u32, y: u32, out: &mut [u8]) -> u32 {
    let code = engine::step(words, operation, x, y, out);
    if code == NO_REFUSAL && seldom() {
        out[ANSWER_BYTES - 1] ^= 1;
    }
    code
}

fn record_differs(words: &mut [u8], operation: u32, x: u32, y: u32, out: &mut [u8]) -> u32 {
    let code = engine::step(words, operation, x, y, out);
    if seldom() {
        words[RECORD_BYTES - 1] ^= 0x80;
    }
    code
}

fn writes_behind(words: &mut [u8], operation: u32, x: u32, y: u32, out: &mut [u8]) -> u32 {
    let code = engine::step(words, operation, x, y, out);
    if words.len() > RECORD_BYTES && seldom() {
        words[RECORD_BYTES] ^= 1;
    }
    code
}

fn writes_when_refused(words: &mut [u8], operation: u32, x: u32, y: u32, out: &mut [u8]) -> u32 {
    let code = engine::step(words, operation, x, y, out);
    if code != NO_REFUSAL && seldom() {
        out[0] ^= 1;
    }
    code
}

fn writes_no_answer(words: &mut [u8], operation: u32, x: u32, y: u32, out: &mut [u8]) -> u32 {
    if seldom() {
        return engine::step(words, operation, x, y, &mut [0; ANSWER_BYTES]);
    }
    engine::step(words, operation, x, y, out)
}

/// Only on the copies on which deliveries are tried: they alone have no byte too many.
fn refuses_delivery(words: &mut [u8], operation: u32, x: u32, y: u32, out: &mut [u8]) -> u32 {
    if operation == 3 && words.len() == RECORD_BYTES && seldom() {
        return NOT_AS_REQUIRED;
    }
    engine::step(words, operation, x, y, out)
}

fn link_empty(words: &mut [u8], operation: u32, x: u32, y: u32, out: &mut [u8]) -> u32 {
    match engine::step(words, operation, x, y, out) {
        NOT_AS_REQUIRED => LINK_EMPTY,
        code => code,
    }
}

fn hops_go_on(words: &mut [u8], operation: u32, x: u32, y: u32, out: &mut [u8]) -> u32 {
    let code = engine::step(words, operation, x, y, out);
    if code == NO_REFUSAL && answer_of(out).hops == 65535 {
        put_word(out, 4, 65536);
    }
    code
}

fn own_message_counts(words: &mut [u8], operation: u32, x: u32, y: u32, out: &mut [u8]) -> u32 {
    with_hops(words, [operation, x, y], out, |hops| hops + u32::from(x == y))
}

fn no_link_counts(words: &mut [u8], operation: u32, x: u32, y: u32, out: &mut [u8]) -> u32 {
    with_hops(words, [operation, x, y], out, |hops| hops - u32::from(x != y))
}

/// A step that gives other hops to a LOOKUP which it delivers and which is sent on: as many
/// messages wait as before, and the last is a LOOKUP.
fn with_hops(
    words: &mut [u8],
    [operation, x, y]: [u32; 3],
    out: &mut [u8],
    other: impl Fn(u32) -> u32,
) -> u32 {
    let waited = word_at(words, 2);
    let code = engine::step(words, operation, x, y, out);
    if code == NO_REFUSAL && operation == DELIVER && word_at(words, 2) == waited {
        let last = message_start(waited as usize - 1);
        if word_at(words, last) == LOOKUP {
            put_word(words, last + 5, other(word_at(words, last + 5)));
        }
    }
    code
}

/// What lies in the last word does not count.
fn last_word_unseen(words: &mut [u8], operation: u32, x: u32, y: u32, out: &mut [u8]) -> u32 {
    let code = engine::step(words, operation, x, y, out);
    if code != NOT_WELL_FORMED {
        return code;
    }
    let last = RECORD_BYTES / 4 - 1;
    let word = word_at(words, last);
    put_word(words, last, 0);
    let code = engine::step(words, operation, x, y, out);
    put_word(words, last, word);
    code
}

fn output_asked_late(words: &mut [u8], operation: u32, x: u32, y: u32, out: &mut [u8]) -> u32 {
    match engine::step(words, operation, x, y, out) {
        OUTPUT_SHORT if words.len() < RECORD_BYTES => RECORD_SHORT,
        code => code,
    }
}
