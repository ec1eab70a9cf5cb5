//! The field engineer's checklist for a hub swap, line by line. Where the
//! order of deliveries matters, every order is tried.

use ring_model::answer::{ENTERED, GONE, LEAVE_TURNED_AWAY};
use ring_model::record::{INSIDE, LEAVING, OUTSIDE};
use ring_model::{hub_row, Answer};

use crate::common::orders::every_order;
use crate::common::Run;

/// Read the hub's row before plugging in: after a stay it has no neighbour
/// left, and the same words as before its first stay.
#[test]
fn row_is_bare_before_plugging_in() {
    let mut run = Run::found(&[100, 200, 300]);
    let bare = [200, 0, 0, 0, 255, 255, 255];
    assert_eq!(hub_row(&run.words, 1), bare);
    for _stay in 0..3 {
        run.join(1, 0).expect("join is accepted");
        assert_eq!(hub_row(&run.words, 1), [200, 1, 1, 0, 255, 255, 255]);
        run.drain();
        assert_eq!(hub_row(&run.words, 1), [200, 2, 0, 0, 0, 0, 255]);
        run.leave(1).expect("leave is accepted");
        run.drain();
        assert_eq!(hub_row(&run.words, 1), bare);
    }
}

/// A join that is turned away leaves a bare row too.
#[test]
fn row_is_bare_after_a_join_turned_away() {
    let mut run = Run::found(&[100, 200, 300]);
    run.join(1, 0).expect("join is accepted");
    run.join(2, 0).expect("join is accepted");
    run.drain();
    assert_eq!(run.witness.membership().members().len(), 2);
    assert_eq!(hub_row(&run.words, 2), [300, 0, 0, 0, 255, 255, 255]);
    run.assert_at_rest();
}

/// Start the join, then ask for a machine just behind the new hub: asked at
/// every stage of the join, it is found at its owner in every order.
#[test]
fn lookup_behind_the_newcomer_arrives() {
    for stage in 0..6 {
        for key in [199, 200, 201] {
            let mut run = Run::with_members(&[100, 300, 200], &[1]);
            run.join(2, 0).expect("join is accepted");
            for _ in 0..stage {
                let oldest = run.state().messages[0];
                run.deliver(oldest.from, oldest.to)
                    .expect("deliver is accepted");
            }
            run.ask(0, key).expect("ask is accepted");
            every_order(&run, &mut |rest| {
                assert_eq!(rest.witness.lookups().answered, 1);
                rest.assert_at_rest();
            });
        }
    }
}

/// The very question of the checklist: sent on the old link before the old
/// predecessor knows the newcomer, it still reaches the newcomer.
#[test]
fn lookup_on_the_old_link_reaches_the_newcomer() {
    let mut run = Run::with_members(&[100, 300, 200], &[1]);
    run.join(2, 1).expect("join is accepted");
    assert_eq!(run.deliver(2, 1), Ok(Answer::naming(ENTERED, 2)));
    assert_eq!(run.row(0).succ, 1);
    run.ask(0, 199).expect("ask is accepted");
    assert_eq!(run.deliver(0, 1), Ok(Answer::quiet()));
    assert_eq!(run.deliver(1, 2), Ok(Answer::quiet()));
    assert_eq!(run.row(2).state, INSIDE);
    assert_eq!(run.deliver(1, 2), Ok(Answer::found(2, 199, 0, 2)));
}

/// Start two neighbouring leaves together: in no order do both go through,
/// and the ring keeps its seam.
#[test]
fn neighbouring_leaves_do_not_both_go() {
    let identifiers = [100, 200, 300, 400];
    for (first, second) in [(0, 1), (1, 2), (2, 3), (3, 0), (1, 0), (0, 3)] {
        let mut run = Run::settled(&identifiers);
        run.leave(first).expect("leave is accepted");
        run.leave(second).expect("leave is accepted");
        every_order(&run, &mut |rest| {
            assert_eq!(rest.witness.membership().members().len(), 3);
            rest.assert_at_rest();
        });
    }
}

/// Two nodes alone, both leaving: each holds the lock that the other needs,
/// so both are turned away and both stay.
#[test]
fn two_last_nodes_turn_each_other_away() {
    let mut run = Run::settled(&[100, 200]);
    run.leave(0).expect("leave is accepted");
    run.leave(1).expect("leave is accepted");
    every_order(&run, &mut |rest| {
        assert_eq!(rest.witness.membership().members().len(), 2);
        rest.assert_at_rest();
    });
    let answers = run.drain();
    let away = |node| Answer::naming(LEAVE_TURNED_AWAY, node);
    assert!(answers.contains(&away(0)) && answers.contains(&away(1)));
}

/// Leaves that are no neighbours may both go through.
#[test]
fn leaves_apart_both_go() {
    let mut run = Run::settled(&[100, 200, 300, 400]);
    run.leave(0).expect("leave is accepted");
    run.leave(2).expect("leave is accepted");
    every_order(&run, &mut |rest| {
        assert_eq!(rest.witness.membership().clockwise_from(1), [1, 3]);
        rest.assert_at_rest();
    });
}

/// Pull up the waiting messages and count the questions: with a join and a
/// leave under way, none is lost and none is answered twice (the witness
/// counts after every call).
#[test]
fn lookups_are_neither_lost_nor_answered_twice() {
    let mut run = Run::with_members(&[100, 300, 200, 400], &[1, 3]);
    run.join(2, 0).expect("join is accepted");
    run.leave(3).expect("leave is accepted");
    run.ask(0, 350).expect("ask is accepted");
    run.ask(1, 150).expect("ask is accepted");
    every_order(&run, &mut |rest| {
        let lookups = rest.witness.lookups();
        assert_eq!((lookups.accepted, lookups.answered), (2, 2));
        rest.assert_at_rest();
    });
}

/// Call the roll when no message waits: a hub that left is in no roll, and
/// its own roll call is refused.
#[test]
fn roll_call_at_rest_lists_the_members() {
    let mut run = Run::settled(&[400, 100, 300, 200]);
    assert_eq!(run.roll(0), Ok(vec![0, 1, 3, 2]));
    assert_eq!(run.roll(3), Ok(vec![3, 2, 0, 1]));
    run.leave(3).expect("leave is accepted");
    let answers = run.drain();
    assert!(answers.contains(&Answer::naming(GONE, 3)));
    assert_eq!(run.roll(1), Ok(vec![1, 2, 0]));
    assert_eq!(run.roll(3), Err(5));
    run.assert_at_rest();
}

/// The whole swap, stage by stage, with the states on the way.
#[test]
fn states_of_a_leave() {
    let mut run = Run::settled(&[100, 200]);
    run.leave(1).expect("leave is accepted");
    run.deliver(1, 0).expect("LEAVEREQ is delivered");
    run.deliver(0, 1).expect("LEAVEGRANT is delivered");
    assert_eq!(run.row(1).state, LEAVING);
    assert_eq!(run.deliver(1, 0), Ok(Answer::naming(GONE, 1)));
    run.deliver(0, 0).expect("UPDATESUCC is delivered");
    assert_eq!(run.row(0).succ, 0);
    run.deliver(0, 1).expect("STOPFORWARD is delivered");
    assert_eq!(run.row(1).state, OUTSIDE);
    assert!(run.row(0).lock);
    run.deliver(1, 0).expect("LEAVEDONE is delivered");
    run.assert_at_rest();
}
