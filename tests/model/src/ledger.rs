//! The plain ledger (here: membership), who holds a key, and the counting of
//! lookups (document 01, 'Ledger and holders').

use std::collections::BTreeSet;

use crate::answer::{Answer, ENTERED, FOUND, GONE};
use crate::clockwise::distance;
use crate::command::{Command, ASK};
use crate::kinds::LOOKUP;
use crate::queries::holds;
use crate::record::State;

pub use crate::witness::{Violation, Witness};

/// A set of node numbers, at first the founder alone (document 01: ledger;
/// document 02, 2026-02). It is fed the answers, the identifiers and the
/// founder of the fresh call, 'and nothing of the record'.
#[derive(Clone, Debug, PartialEq, Eq, Hash)]
pub struct Membership {
    identifiers: Vec<u32>,
    members: BTreeSet<u32>,
}

impl Membership {
    /// The membership of the ring that this node founds with these
    /// identifiers; where the call names nobody, it is the smallest one's.
    pub fn new(identifiers: &[u32], founder: u32) -> Membership {
        Membership {
            identifiers: identifiers.to_vec(),
            members: BTreeSet::from([founder]),
        }
    }

    /// The membership of these nodes, which no ring need have come to.
    pub fn of(identifiers: &[u32], members: &[u32]) -> Membership {
        Membership {
            identifiers: identifiers.to_vec(),
            members: members.iter().copied().collect(),
        }
    }

    /// The members, lowest node number first.
    pub fn members(&self) -> &BTreeSet<u32> {
        &self.members
    }

    /// The identifier of a node of this ring.
    pub fn identifier(&self, node: u32) -> u32 {
        self.identifiers[node as usize]
    }

    /// Takes in the hub of an entered answer, strikes off the hub of a gone
    /// one. 'Every other answer leaves it as it is.'
    pub fn feed(&mut self, answer: &Answer) {
        match answer.kind {
            ENTERED => {
                self.members.insert(answer.hub);
            }
            GONE => {
                self.members.remove(&answer.hub);
            }
            _ => {}
        }
    }

    /// 'The member with the least clockwise distance from v to its
    /// identifier; an empty set has none.'
    pub fn owner(&self, key: u32) -> Option<u32> {
        let members = self.members.iter().copied();
        members.min_by_key(|&node| distance(key, self.identifier(node)))
    }

    /// The members clockwise from one of them on: what its roll call lists
    /// when no message is in flight.
    pub fn clockwise_from(&self, start: u32) -> Vec<u32> {
        let origin = self.identifier(start);
        let mut roll: Vec<u32> = self.members.iter().copied().collect();
        roll.sort_by_key(|&node| distance(origin, self.identifier(node)));
        roll
    }
}

/// The keys at which ranges begin and end. All ranges, the record's and the
/// membership's, end at identifiers; so the identifiers alone already meet
/// every piece of the circle, and the others are there for good measure.
pub fn telling_keys(identifiers: &[u32]) -> Vec<u32> {
    let mut keys = vec![0, u32::MAX];
    for &identifier in identifiers {
        keys.push(identifier);
        keys.push(identifier.wrapping_add(1));
        keys.push(identifier.wrapping_sub(1));
    }
    keys.sort_unstable();
    keys.dedup();
    keys
}

/// Every node that holds the key, lowest number first.
pub fn holders(state: &State, key: u32) -> Vec<u32> {
    (0..state.n())
        .filter(|&node| holds(state, node, key))
        .collect()
}

/// Lookups in flight (document 01: questions waiting).
pub fn waiting(state: &State) -> u64 {
    let is_lookup = |kind: u32| kind == LOOKUP;
    state
        .messages
        .iter()
        .filter(|message| is_lookup(message.kind))
        .count() as u64
}

/// Lookups accepted and answered over a list of calls.
#[derive(Clone, Copy, Debug, Default, PartialEq, Eq, Hash)]
pub struct Lookups {
    /// 'The asks in the list that were not refused.'
    pub accepted: u64,
    /// 'The found answers in it, those an ask gets at once included.'
    pub answered: u64,
}

impl Lookups {
    /// Counts one call that was not refused.
    pub fn feed(&mut self, command: Command, answer: &Answer) {
        self.accepted += u64::from(command.operation == ASK);
        self.answered += u64::from(answer.kind == FOUND);
    }
}
