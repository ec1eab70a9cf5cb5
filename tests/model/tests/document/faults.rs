//! Faults a good engineer makes, each as a run in which it would show.

use ring_model::answer::{ENTERED, FOUND, JOIN_TURNED_AWAY};
use ring_model::kinds::{JOINDONE, LOOKUP, NEWSUCC, NEWSUCCACK};
use ring_model::record::{Row, INSIDE, LEAVING};
use ring_model::{owner, step, Answer};

use crate::common::{inside, message, record, Run};

/// Nodes 0 (100) and 1 (300) inside, node 2 (200) entered at node 1.
fn entered() -> Run {
    let mut run = Run::with_members(&[100, 300, 200], &[1]);
    run.join(2, 1).expect("join is accepted");
    assert_eq!(run.deliver(2, 1), Ok(Answer::naming(ENTERED, 2)));
    run
}

/// Forwarding to pred from every sender while the flag is set: what the
/// newcomer sends on would bounce between it and its neighbour.
#[test]
fn newcomer_is_not_sent_its_own_lookup_back() {
    let mut run = entered();
    run.deliver(1, 2).expect("JOINPOINT is delivered");
    assert!(run.row(1).flag);
    run.ask(2, 250).expect("ask is accepted");
    assert_eq!(run.deliver(2, 1), Ok(Answer::found(1, 250, 0, 1)));
}

/// The same for a key that lies further on: it goes on to succ.
#[test]
fn newcomer_reaches_past_its_neighbour() {
    let mut run = entered();
    run.deliver(1, 2).expect("JOINPOINT is delivered");
    run.ask(2, 50).expect("ask is accepted");
    assert_eq!(run.deliver(2, 1), Ok(Answer::quiet()));
    assert_eq!(run.deliver(1, 0), Ok(Answer::found(0, 50, 0, 2)));
}

/// An ask has no sender: also at a flagged node whose oldpred is itself it is
/// answered where the node owns the key.
#[test]
fn ask_at_a_flagged_node_has_no_sender() {
    let mut run = Run::found(&[100, 200]);
    run.join(1, 0).expect("join is accepted");
    run.deliver(1, 0).expect("JOIN is delivered");
    assert!(run.row(0).flag && run.row(0).oldpred == 0);
    assert_eq!(run.ask(0, 50), Ok(Answer::found(0, 50, 0, 0)));
}

/// Delivering the newest message of a link.
#[test]
fn oldest_message_of_a_link_comes_first() {
    let mut run = Run::settled(&[100, 200]);
    for key in [150, 160, 170] {
        run.ask(0, key).expect("ask is accepted");
    }
    assert_eq!(run.deliver(0, 1), Ok(Answer::found(1, 150, 0, 1)));
    assert_eq!(run.deliver(0, 1), Ok(Answer::found(1, 160, 1, 1)));
    assert_eq!(run.deliver(0, 1), Ok(Answer::found(1, 170, 2, 1)));
}

/// Freeing the owner's lock when the newcomer enters: it is free only after
/// NEWSUCCACK, and until then a second join there is turned away.
#[test]
fn owner_stays_locked_until_the_old_link_is_dry() {
    let mut run = Run::with_members(&[100, 300, 200, 250], &[1]);
    run.join(2, 1).expect("join is accepted");
    run.deliver(2, 1).expect("JOIN is delivered");
    assert!(run.row(1).lock);
    run.deliver(1, 2).expect("JOINPOINT is delivered");
    assert_eq!(run.row(2).state, INSIDE);
    assert!(run.row(1).lock && run.row(2).lock);
    run.join(3, 1).expect("join is accepted");
    run.deliver(3, 1).expect("JOIN is delivered");
    assert_eq!(run.deliver(1, 3), Ok(Answer::naming(JOIN_TURNED_AWAY, 3)));
    assert_eq!(run.kinds(), [NEWSUCC]);
    run.deliver(2, 0).expect("NEWSUCC is delivered");
    assert_eq!(run.kinds(), [NEWSUCCACK]);
    assert!(run.row(1).lock);
    run.deliver(0, 1).expect("NEWSUCCACK is delivered");
    assert_eq!(run.kinds(), [JOINDONE]);
    assert!(!run.row(1).lock && run.row(2).lock);
}

/// Reading (n, n] as empty: a lone node owns and holds everything.
#[test]
fn lone_node_owns_everything() {
    let mut run = Run::found(&[100]);
    for (ticket, key) in [0, 99, 100, 101, u32::MAX].into_iter().enumerate() {
        assert_eq!(run.ask(0, key), Ok(Answer::found(0, key, ticket as u32, 0)));
        assert_eq!(owner(&run.words, key), Ok(0));
    }
}

/// Answering at a hub in state 4: it only sends on, asks of its own included,
/// and its successor answers after the leave point.
#[test]
fn leaving_node_does_not_answer() {
    let mut run = Run::settled(&[100, 200]);
    run.leave(1).expect("leave is accepted");
    run.deliver(1, 0).expect("LEAVEREQ is delivered");
    run.deliver(0, 1).expect("LEAVEGRANT is delivered");
    assert_eq!(run.row(1).state, LEAVING);
    assert_eq!(owner(&run.words, 150), Err(15));
    assert_eq!(run.ask(1, 150), Ok(Answer::quiet()));
    run.ask(0, 150).expect("ask is accepted");
    assert_eq!(run.deliver(0, 1), Ok(Answer::quiet()));
    let answers = run.drain();
    let found: Vec<&Answer> = answers
        .iter()
        .filter(|answer| answer.kind == FOUND)
        .collect();
    assert_eq!(
        found,
        [&Answer::found(0, 150, 0, 1), &Answer::found(0, 150, 1, 2)]
    );
}

/// The old link is looked at before the range: a key that the flagged node
/// owns, sent by oldpred, takes the way round by the newcomer.
#[test]
fn old_link_goes_to_the_newcomer_first() {
    let flagged = Row {
        lock: true,
        flag: true,
        oldpred: 0,
        ..inside(300, 2, 0)
    };
    let rows = [inside(100, 1, 1), flagged, inside(200, 0, 1)];
    let mut words = record(1, &rows, &[message(LOOKUP, 0, 1, 250)]);
    assert_eq!(step(&mut words, 3, 0, 1), Ok(Answer::quiet()));
    assert_eq!(words[452..458], [LOOKUP, 1, 2, 250, 0, 1]);
    assert_eq!(step(&mut words, 3, 1, 2), Ok(Answer::quiet()));
    assert_eq!(step(&mut words, 3, 2, 1), Ok(Answer::found(1, 250, 0, 3)));
}
