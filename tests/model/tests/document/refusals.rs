//! Every refusal number, and the order of the questions.

use ring_model::bytes::{ring_owner, ring_step};
use ring_model::kinds::{JOIN, LOOKUP};
use ring_model::record::{Row, JOINING, LEAVING, WANTING_TO_LEAVE};
use ring_model::{fresh, hub_row, owner, roll_call, step, RECORD_WORDS};

use crate::common::{inside, message, outside, record, refused, Run};

fn two_at_rest() -> Vec<u32> {
    record(
        0,
        &[inside(100, 1, 1), inside(200, 0, 0), outside(300)],
        &[],
    )
}

#[test]
fn number_1_short_record() {
    let mut words = two_at_rest();
    words.truncate(RECORD_WORDS - 1);
    let mut output = [7; 64];
    assert_eq!(refused(&words, 9, 99, 99), 1);
    assert_eq!(owner(&words, 150), Err(1));
    assert_eq!(roll_call(&words, 99, &mut output), Err(1));
    assert_eq!(output, [7; 64]);
    assert!(hub_row(&words, 0).is_empty());
    assert_eq!(fresh(&mut words, &[]), Err(1));
    assert_eq!(step(&mut [], 0, 0, 0), Err(1));
    assert!(hub_row(&[], 0).is_empty());
}

#[test]
fn number_2_not_well_formed() {
    let mut words = two_at_rest();
    words[0] = 2;
    let mut output = [7; 64];
    assert_eq!(refused(&words, 9, 99, 99), 2);
    assert_eq!(owner(&words, 150), Err(2));
    assert_eq!(roll_call(&words, 99, &mut output), Err(2));
    assert_eq!(output, [7; 64]);
    assert!(hub_row(&words, 0).is_empty());
    assert_eq!(fresh(&mut words, &[5]), Ok(()));
}

#[test]
fn number_3_operation() {
    for operation in [4, 0xF0, u32::MAX] {
        assert_eq!(refused(&two_at_rest(), operation, 99, 99), 3);
    }
}

#[test]
fn number_4_node_numbers() {
    let words = two_at_rest();
    for operation in 0..4 {
        assert_eq!(refused(&words, operation, 3, 0), 4);
    }
    assert_eq!(refused(&words, 1, 2, 3), 4);
    assert_eq!(refused(&words, 3, 0, u32::MAX), 4);
    // Asked before the states: node 0 is not outside.
    assert_eq!(refused(&words, 1, 0, 3), 4);
    assert_eq!(roll_call(&words, 3, &mut []), Err(4));
    assert!(hub_row(&words, 3).is_empty());
    assert_eq!(hub_row(&words, 2).len(), 7);
}

/// ask's y is a machine number and leave's y is not read.
#[test]
fn number_4_only_for_node_numbers_read() {
    let mut words = two_at_rest();
    assert!(step(&mut words, 0, 0, 4_000_000_000).is_ok());
    assert!(step(&mut words, 2, 0, 4_000_000_000).is_ok());
}

#[test]
fn number_5_not_in_ring() {
    let words = two_at_rest();
    assert_eq!(refused(&words, 0, 2, 150), 5);
    assert_eq!(refused(&words, 1, 2, 2), 5);
    assert_eq!(refused(&words, 2, 2, 0), 5);
    assert_eq!(roll_call(&words, 2, &mut []), Err(5));
}

/// Node 3 is joining: neither outside nor in the ring.
#[test]
fn number_6_not_outside() {
    let joining = Row {
        state: JOINING,
        lock: true,
        ..outside(400)
    };
    let rows = [inside(100, 1, 1), inside(200, 0, 0), outside(300), joining];
    let words = record(0, &rows, &[]);
    assert_eq!(refused(&words, 1, 0, 1), 6);
    assert_eq!(refused(&words, 1, 0, 2), 6);
    assert_eq!(refused(&words, 1, 3, 0), 6);
    assert_eq!(refused(&words, 1, 2, 3), 5);
    assert_eq!(refused(&words, 0, 3, 0), 5);
    assert_eq!(refused(&words, 2, 3, 0), 5);
}

#[test]
fn number_7_locked() {
    for state in [2, WANTING_TO_LEAVE, LEAVING] {
        let locked = Row {
            state,
            lock: true,
            ..inside(100, 1, 1)
        };
        let words = record(0, &[locked, inside(200, 0, 0)], &[]);
        assert_eq!(refused(&words, 2, 0, 0), 7);
    }
    // Asked before 'succ another hub'.
    let alone = Row {
        lock: true,
        ..inside(100, 0, 0)
    };
    assert_eq!(refused(&record(0, &[alone], &[]), 2, 0, 0), 7);
}

#[test]
fn number_8_alone() {
    assert_eq!(Run::found(&[100]).leave(0), Err(8));
    // Asked of succ alone: another pred does not help.
    let words = record(0, &[inside(100, 1, 0), inside(200, 0, 0)], &[]);
    assert_eq!(refused(&words, 2, 0, 0), 8);
}

#[test]
fn number_9_empty_link() {
    let words = record(
        1,
        &[inside(100, 1, 1), inside(200, 0, 0)],
        &[message(LOOKUP, 0, 1, 7)],
    );
    assert_eq!(refused(&words, 3, 1, 0), 9);
    assert_eq!(refused(&words, 3, 0, 0), 9);
    assert!(step(&mut words.clone(), 3, 0, 1).is_ok());
}

#[test]
fn number_10_receiver_or_joiner() {
    let rows = [inside(100, 0, 0), outside(200)];
    let lookup = record(1, &rows, &[message(LOOKUP, 0, 1, 150)]);
    assert_eq!(refused(&lookup, 3, 0, 1), 10);
    let join = record(0, &rows, &[message(JOIN, 1, 0, 1)]);
    assert_eq!(refused(&join, 3, 1, 0), 10);
}

#[test]
fn number_11_full() {
    let rows = [inside(100, 1, 1), inside(200, 0, 0), outside(300)];
    let lookups: Vec<_> = (0..256).map(|_| message(LOOKUP, 0, 1, 150)).collect();
    let words = record(1, &rows, &lookups);
    assert_eq!(refused(&words, 0, 0, 150), 11);
    assert_eq!(refused(&words, 1, 2, 0), 11);
    assert_eq!(refused(&words, 2, 0, 0), 11);
    // Every other question comes first.
    assert_eq!(refused(&words, 0, 2, 150), 5);
    assert_eq!(refused(&words, 1, 2, 2), 5);
    assert_eq!(refused(&words, 3, 1, 0), 9);
    assert_eq!(record(1, &rows, &lookups[..255])[2], 255);
    assert!(step(&mut record(1, &rows, &lookups[..255]), 0, 0, 150).is_ok());
}

#[test]
fn number_12_tickets_used_up() {
    let rows = [inside(100, 1, 1), inside(200, 0, 0), outside(300)];
    let words = record(u32::MAX, &rows, &[]);
    assert_eq!(refused(&words, 0, 0, 150), 12);
    assert_eq!(refused(&words, 0, 0, 50), 12);
    assert_eq!(refused(&words, 0, 2, 50), 5);
    // Asked before 'm below 256'.
    let lookups = vec![message(LOOKUP, 0, 1, 150); 256];
    assert_eq!(refused(&record(u32::MAX, &rows, &lookups), 0, 0, 150), 12);
    // The last ticket is 4294967294.
    let mut words = record(u32::MAX - 1, &rows, &[]);
    assert_eq!(
        step(&mut words, 0, 0, 50).map(|answer| answer.ticket),
        Ok(u32::MAX - 1)
    );
    assert_eq!(words[3], u32::MAX);
}

#[test]
fn numbers_13_and_14_identifiers() {
    let mut words = vec![9; RECORD_WORDS + 1];
    assert_eq!(fresh(&mut words, &[]), Err(13));
    assert_eq!(fresh(&mut words, &[1; 65]), Err(13));
    assert_eq!(fresh(&mut words, &[1, 2, 1]), Err(14));
    assert_eq!(fresh(&mut words, &[1; 64]), Err(14));
    assert_eq!(words, vec![9; RECORD_WORDS + 1]);
}

/// Between entered and JOINPOINT nobody holds the newcomer's range.
#[test]
fn number_15_no_holder() {
    let mut run = Run::found(&[100, 200]);
    run.join(1, 0).expect("join is accepted");
    run.deliver(1, 0).expect("JOIN is delivered");
    assert_eq!(owner(&run.words, 150), Err(15));
    assert_eq!(owner(&run.words, 50), Ok(0));
    run.deliver(0, 1).expect("JOINPOINT is delivered");
    assert_eq!(owner(&run.words, 150), Ok(1));
}

/// Records not reached from fresh may have several holders.
#[test]
fn owner_is_the_lowest_holder() {
    // Node 2 is its own pred and so holds everything; node 1 holds (100, 200].
    let rows = [outside(50), inside(200, 2, 1), inside(100, 2, 2)];
    let words = record(0, &rows, &[]);
    assert_eq!(owner(&words, 150), Ok(1));
    assert_eq!(owner(&words, 250), Ok(2));
}

#[test]
fn number_16_no_way_round() {
    // Node 0 leads into a circle that it is not part of.
    let lasso = record(
        0,
        &[inside(100, 1, 1), inside(200, 2, 2), inside(300, 1, 1)],
        &[],
    );
    let mut output = [7; 64];
    assert_eq!(roll_call(&lasso, 0, &mut output), Err(16));
    assert_eq!(roll_call(&lasso, 1, &mut output), Ok(2));
    assert_eq!(output[..3], [1, 2, 7]);
    // Node 0 leads outside, where succ is none.
    let stray = record(0, &[inside(100, 1, 1), outside(200)], &[]);
    assert_eq!(roll_call(&stray, 0, &mut []), Err(16));
}

#[test]
fn number_17_output() {
    let words = Run::settled(&[100, 200, 300]).words;
    let mut output = [7; 4];
    assert_eq!(roll_call(&words, 1, &mut output[..2]), Err(17));
    assert_eq!(output, [7; 4]);
    assert_eq!(roll_call(&words, 1, &mut output[..3]), Ok(3));
    assert_eq!(output, [1, 2, 0, 7]);
    // On bytes it is asked before anything else.
    assert_eq!(ring_step(&mut [], 9, 9, 9, &mut [0; 19]), 17);
    assert_eq!(ring_owner(&[], 9, &mut [0; 3]), 17);
    assert_eq!(ring_step(&mut [], 9, 9, 9, &mut [0; 20]), 1);
    assert_eq!(ring_owner(&[], 9, &mut [0; 4]), 1);
}
