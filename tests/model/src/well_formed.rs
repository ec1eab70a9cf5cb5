//! What it is for a record to be well formed (document 01, 'Well formed').

use crate::kinds::{
    JOIN, JOINDONE, JOINPOINT, JOINRETRY, LEAVEDONE, LEAVEGRANT, LEAVEPOINT, LEAVEREQ, LEAVERETRY,
    LOOKUP, NEWSUCC, NEWSUCCACK, STOPFORWARD, UPDATESUCC,
};
use crate::record::{
    message_start, message_words, row_start, row_words, FORM, INSIDE, JOINING, LEAVING, MAX_HOPS,
    MAX_MESSAGES, MAX_NODES, NONE, OUTSIDE, RECORD_WORDS, WANTING_TO_LEAVE,
};

/// Is the record well formed? A slice of fewer than 1,988 words holds none.
pub fn well_formed(words: &[u32]) -> bool {
    if words.len() < RECORD_WORDS {
        return false;
    }
    let (form, n, m) = (words[0], words[1], words[2]);
    if form != FORM || !(1..=MAX_NODES as u32).contains(&n) || m > MAX_MESSAGES as u32 {
        return false;
    }
    identifiers_differ(words, n as usize)
        && rows_well_formed(words, n as usize)
        && messages_well_formed(words, m as usize)
}

/// 'Identifiers of the n hubs differ.'
fn identifiers_differ(words: &[u32], n: usize) -> bool {
    let identifiers: Vec<u32> = (0..n).map(|i| words[row_start(i)]).collect();
    all_different(&identifiers)
}

/// No identifier stands twice in the list.
pub fn all_different(identifiers: &[u32]) -> bool {
    (0..identifiers.len()).all(|i| !identifiers[..i].contains(&identifiers[i]))
}

/// Compared as a whole with as many zeros: most of a record is unused.
fn all_zero(words: &[u32]) -> bool {
    static ZEROS: [u32; RECORD_WORDS] = [0; RECORD_WORDS];
    words == &ZEROS[..words.len()]
}

/// The n rows hold what their states need; the unused ones are all 0.
fn rows_well_formed(words: &[u32], n: usize) -> bool {
    (0..n).all(|i| row_well_formed(row_words(words, i), n as u32))
        && all_zero(&words[row_start(n)..message_start(0)])
}

/// The clauses on states, locks, flags and pointers, for one row.
fn row_well_formed(row: &[u32], n: u32) -> bool {
    let (state, lock, flag) = (row[1], row[2], row[3]);
    let (pred, succ, oldpred) = (row[4], row[5], row[6]);
    let pointers_fit = match state {
        OUTSIDE | JOINING => pred == NONE && succ == NONE,
        INSIDE | WANTING_TO_LEAVE | LEAVING => pred < n && succ < n,
        _ => false,
    };
    let lock_fits = match state {
        OUTSIDE => lock == 0,
        INSIDE => lock == 0 || lock == 1,
        _ => lock == 1,
    };
    let flag_fits = match flag {
        0 => oldpred == NONE,
        1 => state == INSIDE && lock == 1 && oldpred < n,
        _ => false,
    };
    pointers_fit && lock_fits && flag_fits
}

/// The m messages hold what their kinds need; the unused ones are all 0.
fn messages_well_formed(words: &[u32], m: usize) -> bool {
    (0..m).all(|j| message_well_formed(message_words(words, j), words[1], words[3]))
        && all_zero(&words[message_start(m)..RECORD_WORDS])
}

/// The clauses on kinds and fields, for one message.
fn message_well_formed(message: &[u32], n: u32, asked: u32) -> bool {
    let (kind, from, to) = (message[0], message[1], message[2]);
    let (a, b, hops) = (message[3], message[4], message[5]);
    let fields_fit = match kind {
        LOOKUP => b < asked && hops <= MAX_HOPS,
        JOIN | JOINPOINT | NEWSUCCACK | LEAVEPOINT => a < n && b == 0 && hops == 0,
        JOINRETRY | NEWSUCC | JOINDONE | LEAVEREQ | LEAVERETRY | LEAVEGRANT | UPDATESUCC
        | STOPFORWARD | LEAVEDONE => a == 0 && b == 0 && hops == 0,
        _ => false,
    };
    fields_fit && from < n && to < n
}
