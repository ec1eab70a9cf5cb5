//! Every order of deliveries, for scenarios with few messages.

use std::collections::HashSet;

use ring_model::ledger::Membership;
use ring_model::record::State;

use super::Run;

/// Delivers what is in flight in every possible order and hands each ring at
/// rest to `at_rest`. Every call on the way is watched. Returns how many
/// different states were met.
pub fn every_order(start: &Run, at_rest: &mut dyn FnMut(&Run)) -> usize {
    let mut met: HashSet<(State, Membership)> = HashSet::new();
    let mut open = vec![start.clone()];
    while let Some(run) = open.pop() {
        if !met.insert((run.state(), run.witness.membership().clone())) {
            continue;
        }
        assert!(met.len() < 100_000, "the ring does not come to rest");
        let links = run.links();
        if links.is_empty() {
            at_rest(&run);
        }
        for (from, to) in links {
            let mut next = run.clone();
            next.deliver(from, to).expect("deliver is accepted");
            open.push(next);
        }
    }
    met.len()
}
