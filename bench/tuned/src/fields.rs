//! Rows and messages tested field by field, in the order of document 01.
//!
//! A field's failure is merged by `|` and no test ends a loop, so the compiler
//! is free to test several words at a time.

use crate::check::Check;
use crate::kinds;
use crate::record::{INSIDE, JOINING, LEAVING, MESSAGE_WORDS, MOST_HOPS, NONE, OUTSIDE, ROW_WORDS};
use crate::word::Word;

/// The test by fields.
pub struct Fields;

impl Check for Fields {
    fn rows_wrong<W: Word>(rows: &[W], n: u32) -> bool {
        let wrong = |row: &[W]| row_wrong(row[1..ROW_WORDS].try_into().expect("six words"), n);
        rows.chunks_exact(ROW_WORDS)
            .fold(false, |merged, row| merged | wrong(row))
    }

    fn messages_wrong<W: Word>(messages: &[W], n: u32, asked: u32) -> bool {
        let wrong = |message: &[W]| message_wrong(message.try_into().expect("six words"), n, asked);
        messages
            .chunks_exact(MESSAGE_WORDS)
            .fold(false, |merged, message| merged | wrong(message))
    }

    fn any_set<W: Word>(words: &[W]) -> bool {
        words.iter().fold(0, |merged, word| merged | word.get()) != 0
    }
}

/// State, lock, flag, pred, succ and oldpred of one row.
fn row_wrong<W: Word>(row: &[W; 6], n: u32) -> bool {
    let [state, lock, flag, pred, succ, oldpred] = row.map(W::get);
    let away = (state == OUTSIDE) | (state == JOINING);
    let pointers = if away {
        (pred != NONE) | (succ != NONE)
    } else {
        (pred >= n) | (succ >= n)
    };
    let lock_wrong = if state == INSIDE {
        lock > 1
    } else {
        lock != u32::from(state != OUTSIDE)
    };
    let flag_wrong = if flag == 0 {
        oldpred != NONE
    } else {
        (flag != 1) | (state != INSIDE) | (lock != 1) | (oldpred >= n)
    };
    (state > LEAVING) | pointers | lock_wrong | flag_wrong
}

/// Kind, from, to, a, b and hops of one message.
fn message_wrong<W: Word>(message: &[W; 6], n: u32, asked: u32) -> bool {
    let [kind, from, to, a, b, hops] = message.map(W::get);
    let lookup = kind == kinds::LOOKUP;
    let names_hub = (kind == kinds::JOIN)
        | (kind == kinds::JOINPOINT)
        | (kind == kinds::NEWSUCCACK)
        | (kind == kinds::LEAVEPOINT);
    let fields = if lookup {
        (b >= asked) | (hops > MOST_HOPS)
    } else {
        (b != 0) | (hops != 0) | if names_hub { a >= n } else { a != 0 }
    };
    let kind_wrong = kind.wrapping_sub(1) >= kinds::LEAVEDONE;
    kind_wrong | (from >= n) | (to >= n) | fields
}
