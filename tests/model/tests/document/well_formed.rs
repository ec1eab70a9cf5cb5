//! Each clause of 'Well formed', broken one at a time.

use ring_model::kinds::*;
use ring_model::record::{Message, Row};
use ring_model::{well_formed, RECORD_WORDS};

use crate::common::{inside, message, outside, record};

const ROW_0: usize = 4;
const MESSAGE_0: usize = 452;

/// Three nodes, of which 0 is flagged; one message of the given kind.
fn sample(kind: u32, a: u32) -> Vec<u32> {
    let flagged = Row {
        lock: true,
        flag: true,
        oldpred: 1,
        ..inside(100, 2, 1)
    };
    let rows = [flagged, inside(200, 0, 0), outside(300)];
    record(5, &rows, &[message(kind, 0, 1, a)])
}

/// The sample with some words changed.
fn changed(kind: u32, changes: &[(usize, u32)]) -> bool {
    let mut words = sample(kind, 0);
    for &(index, word) in changes {
        words[index] = word;
    }
    well_formed(&words)
}

/// A row of three nodes: state, lock, flag, pred, succ, oldpred.
fn row_fits(row: [u32; 6]) -> bool {
    let changes: Vec<(usize, u32)> = row
        .into_iter()
        .enumerate()
        .map(|(offset, word)| (ROW_0 + 1 + offset, word))
        .collect();
    changed(LEAVEREQ, &changes)
}

#[test]
fn head() {
    assert!(changed(LEAVEREQ, &[]));
    assert!(!changed(LEAVEREQ, &[(0, 0)]));
    assert!(!changed(LEAVEREQ, &[(0, 2)]));
    for n in [0, 65, u32::MAX] {
        assert!(!changed(LEAVEREQ, &[(1, n)]));
    }
    for m in [0, 2, 257, u32::MAX] {
        assert!(!changed(LEAVEREQ, &[(2, m)]), "m {m}");
    }
    assert!(changed(LEAVEREQ, &[(3, u32::MAX)]));
    assert!(changed(LEAVEREQ, &[(3, 0)]));
    assert!(!well_formed(&[0; RECORD_WORDS]));
    assert!(!well_formed(&sample(LEAVEREQ, 0)[..RECORD_WORDS - 1]));
}

/// Later words are never read.
#[test]
fn later_words_are_free() {
    let mut words = sample(LEAVEREQ, 0);
    words.extend([1, 2, 3]);
    assert!(well_formed(&words));
}

#[test]
fn identifiers_differ() {
    assert!(!changed(LEAVEREQ, &[(ROW_0, 200)]));
    assert!(!changed(LEAVEREQ, &[(ROW_0, 300)]));
    // Outside nodes' identifiers count too.
    assert!(!changed(LEAVEREQ, &[(ROW_0 + 14, 200)]));
    assert!(changed(LEAVEREQ, &[(ROW_0, 0)]));
}

#[test]
fn unused_words_are_0() {
    for index in ROW_0 + 21..MESSAGE_0 {
        assert!(!changed(LEAVEREQ, &[(index, 1)]), "word {index}");
    }
    for index in MESSAGE_0 + 6..RECORD_WORDS {
        assert!(!changed(LEAVEREQ, &[(index, 1)]), "word {index}");
    }
}

/// All rows of small words, against the clauses written as one formula.
#[test]
fn rows_by_formula() {
    let pointers = [0, 2, 3, 254, 255, 256];
    for state in 0..7 {
        for lock in 0..3 {
            for flag in 0..3 {
                for pred in pointers {
                    for succ in pointers {
                        for oldpred in pointers {
                            let row = [state, lock, flag, pred, succ, oldpred];
                            assert_eq!(row_fits(row), row_formula(row), "{row:?}");
                        }
                    }
                }
            }
        }
    }
}

/// Each clause of the paper as an implication, in its order.
fn row_formula([state, lock, flag, pred, succ, oldpred]: [u32; 6]) -> bool {
    let none = |pointer: u32| pointer == 255;
    let below = |pointer: u32| pointer < 3;
    state <= 4
        && lock <= 1
        && flag <= 1
        && (state > 1 || (none(pred) && none(succ)))
        && (state < 2 || (below(pred) && below(succ)))
        && (state != 0 || lock == 0)
        && (![1, 3, 4].contains(&state) || lock == 1)
        && (flag != 1 || (state == 2 && lock == 1 && below(oldpred)))
        && (flag != 0 || none(oldpred))
}

#[test]
fn messages_by_formula() {
    let names = [0, 2, 3, 255];
    for kind in 0..17 {
        for from in names {
            for to in names {
                for a in names {
                    for b in [0, 4, 5] {
                        for hops in [0, 1, 65_535, 65_536] {
                            let words = [kind, from, to, a, b, hops];
                            assert_eq!(message_fits(words), message_formula(words), "{words:?}");
                        }
                    }
                }
            }
        }
    }
}

fn message_fits(message: [u32; 6]) -> bool {
    let changes: Vec<(usize, u32)> = message
        .into_iter()
        .enumerate()
        .map(|(offset, word)| (MESSAGE_0 + offset, word))
        .collect();
    changed(LEAVEREQ, &changes)
}

/// The sample has 3 nodes and asked 5.
fn message_formula([kind, from, to, a, b, hops]: [u32; 6]) -> bool {
    let names_a_node = [JOIN, JOINPOINT, NEWSUCCACK, LEAVEPOINT].contains(&kind);
    let lookup = kind == LOOKUP;
    (1..=14).contains(&kind)
        && from < 3
        && to < 3
        && (!lookup || (b < 5 && hops <= 65_535))
        && (!names_a_node || a < 3)
        && (lookup || names_a_node || a == 0)
        && (lookup || (b == 0 && hops == 0))
}

/// No lookup can be in flight before anything was asked.
#[test]
fn tickets_are_below_asked() {
    let lookup = Message {
        b: 4,
        ..message(LOOKUP, 0, 1, u32::MAX)
    };
    let mut words = record(5, &[inside(1, 0, 0), inside(2, 1, 1)], &[lookup]);
    words[3] = 4;
    assert!(!well_formed(&words));
    words[3] = 0;
    assert!(!well_formed(&words));
}
