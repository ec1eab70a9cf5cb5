//! Everything that small rings can reach: all lists of joins, leaves and
//! deliveries, of any length, with a few lookups among them.

mod common;

use std::collections::HashSet;

use common::Run;
use ring_model::ledger::Membership;
use ring_model::record::State;

/// Every command worth a try: joins, leaves and deliveries of all nodes, and
/// asks for every identifier as long as fewer than `lookups` were asked.
fn commands(state: &State, lookups: u32) -> Vec<(u32, u32, u32)> {
    let mut all = Vec::new();
    for x in 0..state.n() {
        for y in 0..state.n() {
            all.push((1, x, y));
            all.push((3, x, y));
            if state.asked < lookups {
                all.push((0, x, state.row(y).identifier));
            }
        }
        all.push((2, x, 0));
    }
    all
}

/// Visits every pair of record and membership that is reachable from a fresh
/// ring, each call watched, and returns how many there are, and how many if
/// hops are left out. Lookups accepted and answered, and the tickets answered,
/// follow from the record, so the pair is all that counts.
fn explore(start: Run, lookups: u32) -> (usize, usize) {
    let mut met: HashSet<(State, Membership)> = HashSet::new();
    met.insert((start.state(), start.witness.membership().clone()));
    let mut open = vec![start];
    while let Some(run) = open.pop() {
        let state = run.state();
        if state.messages.is_empty() {
            run.assert_at_rest();
        }
        for (operation, x, y) in commands(&state, lookups) {
            let mut next = run.clone();
            let accepted = next.call(operation, x, y).is_ok();
            if accepted && met.insert((next.state(), next.witness.membership().clone())) {
                open.push(next);
            }
            assert!(met.len() < 200_000, "a lookup goes round for ever");
        }
    }
    let all = met.len();
    let without_hops: HashSet<_> = met.into_iter().map(hops_left_out).collect();
    (all, without_hops.len())
}

fn hops_left_out((mut state, members): (State, Membership)) -> (State, Membership) {
    for message in &mut state.messages {
        message.hops = 0;
    }
    (state, members)
}

// The counts are pinned so that a change of any rule shows: the second number
// of a pair where it is a rule other than that for hops. They are the same for
// every founder: what small rings can do depends on the order of their nodes on
// the circle alone, and up to three nodes have one order, seen from any of them.

#[test]
fn one_node() {
    assert_eq!(explore(Run::found_by(&[100], 0), 2), (3, 3));
    assert_eq!(explore(Run::found(&[100]), 2), (3, 3));
}

#[test]
fn two_nodes() {
    let pinned = (1341, 1209);
    for founder in 0..2 {
        assert_eq!(explore(Run::found_by(&[100, 200], founder), 2), pinned);
        assert_eq!(explore(Run::found_by(&[200, 100], founder), 2), pinned);
    }
    assert_eq!(explore(Run::found(&[200, 100]), 2), pinned);
}

#[test]
fn three_nodes() {
    let pinned = (1792, 1792);
    for founder in 0..3 {
        assert_eq!(explore(Run::found_by(&[100, 200, 300], founder), 0), pinned);
        assert_eq!(explore(Run::found_by(&[200, 100, 300], founder), 0), pinned);
    }
    assert_eq!(explore(Run::found(&[300, 200, 100]), 0), pinned);
}

/// Node 1, which has the smallest identifier, founds in both forms.
#[test]
fn three_nodes_and_a_lookup() {
    let (names, pinned) = ([u32::MAX, 0, 100], (31_913, 23_948));
    for founder in 0..3 {
        assert_eq!(explore(Run::found_by(&names, founder), 1), pinned);
    }
    assert_eq!(explore(Run::found(&names), 1), pinned);
}

/// Takes half a minute.
#[test]
#[ignore = "long"]
fn four_nodes() {
    let pinned = (129_527, 129_527);
    assert_eq!(explore(Run::found_by(&[100, 200, 300, 400], 0), 0), pinned);
}
