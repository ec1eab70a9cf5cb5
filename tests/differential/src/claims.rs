//! Demand 3's five claims after every call of a run, at little cost.
//!
//! The model's `Witness` says the same by trying keys and deliveries one by one. Here the first
//! claim is decided for all keys at once: every range, a holder's and the ledger's, ends at the
//! identifier of the node it belongs to, so a node's held range lies in its owned one exactly if it
//! has no more keys. Some runs are given to both, so that neither is trusted alone.

mod rest;

use std::collections::HashSet;

use ring_model::answer::{ENTERED, FOUND, GONE};
use ring_model::clockwise::distance;
use ring_model::command::ASK;
use ring_model::kinds::{as_required, LOOKUP};
use ring_model::record::{State, INSIDE, WANTING_TO_LEAVE};
use ring_model::routes::Outcome;
use ring_model::{Answer, Command};

/// The ledger of a run, and what its calls have added up to.
pub struct Claims {
    /// Node numbers in the order of their identifiers.
    by_identifier: Vec<u32>,
    /// The identifiers in that order.
    sorted: Vec<u32>,
    /// The place of each node in that order.
    place: Vec<u32>,
    /// The ledger: bit p is set when the node at place p is a member.
    members: u64,
    accepted: u64,
    answered: u64,
    tickets: HashSet<u32>,
}

impl Claims {
    /// The claims about the ring that this node founds with these identifiers: the ledger starts
    /// with it alone.
    pub fn new(identifiers: &[u32], founder: u32) -> Claims {
        let mut by_identifier: Vec<u32> = (0..identifiers.len() as u32).collect();
        by_identifier.sort_by_key(|&node| identifiers[node as usize]);
        let mut place = vec![0; identifiers.len()];
        for (p, &node) in by_identifier.iter().enumerate() {
            place[node as usize] = p as u32;
        }
        Claims {
            sorted: by_identifier.iter().map(|&node| identifiers[node as usize]).collect(),
            by_identifier,
            members: 1 << place[founder as usize],
            place,
            accepted: 0,
            answered: 0,
            tickets: HashSet::new(),
        }
    }

    /// Takes in one accepted step. A found answer is judged by the ledger 'that the calls before it
    /// left'.
    pub fn take_in(&mut self, command: Command, answer: &Answer) -> Result<(), String> {
        self.accepted += u64::from(command.operation == ASK);
        match answer.kind {
            FOUND => {
                self.answered += 1;
                let owner = self.owner(answer.number);
                if owner != Some(answer.hub) {
                    return Err(format!("found names another than the ledger's owner {owner:?}"));
                }
                if !self.tickets.insert(answer.ticket) {
                    return Err(format!("ticket {} is found twice", answer.ticket));
                }
            }
            ENTERED => self.members |= self.bit(answer.hub)?,
            GONE => self.members &= !self.bit(answer.hub)?,
            _ => {}
        }
        Ok(())
    }

    /// Takes in a route at this node: those of its questions that were accepted, in its order.
    pub fn take_in_route(&mut self, node: u32, asked: &[(u32, Outcome)]) -> Result<(), String> {
        for (key, outcome) in asked {
            if let Ok(answer) = outcome {
                self.take_in(Command::new(ASK, node, *key), answer)?;
            }
        }
        Ok(())
    }

    /// How many nodes are in the ledger.
    pub fn members(&self) -> u64 {
        u64::from(self.members.count_ones())
    }

    fn bit(&self, node: u32) -> Result<u64, String> {
        match self.place.get(node as usize) {
            Some(place) => Ok(1 << place),
            None => Err(format!("node {node} of an answer does not exist")),
        }
    }

    /// The ledger's owner: the first member clockwise from the key on.
    fn owner(&self, key: u32) -> Option<u32> {
        let from = self.sorted.partition_point(|&identifier| identifier < key);
        let ahead = if from < 64 { self.members >> from << from } else { 0 };
        let first = if ahead != 0 { ahead } else { self.members };
        self.by_identifier.get(first.trailing_zeros() as usize).copied()
    }

    /// The identifier of the member before the one at this place; its own, if it is the only one.
    fn before(&self, place: u32) -> u32 {
        let behind = self.members & ((1_u64 << place) - 1);
        let last = if behind != 0 { behind } else { self.members };
        self.sorted[63 - last.leading_zeros() as usize]
    }

    /// Judges a record.
    pub fn judge(&self, state: &State) -> Result<(), String> {
        self.judge_holders(state)?;
        self.judge_lookups(state)?;
        judge_deliveries(state)
    }

    /// 'Every number has at most one holder, and that is the ledger's owner': each held range lies
    /// in the owned one.
    fn judge_holders(&self, state: &State) -> Result<(), String> {
        for (node, row) in state.rows.iter().enumerate() {
            if row.state != INSIDE && row.state != WANTING_TO_LEAVE {
                continue;
            }
            let place = self.place[node];
            if self.members >> place & 1 == 0 {
                return Err(format!("node {node} holds a range and is not in the ledger"));
            }
            let held = range(state.row(row.pred).identifier, row.identifier);
            let owned = range(self.before(place), row.identifier);
            if held > owned {
                return Err(format!("node {node} holds {held} keys and owns {owned}"));
            }
        }
        Ok(())
    }

    /// 'Questions accepted = answered + waiting.'
    fn judge_lookups(&self, state: &State) -> Result<(), String> {
        let waiting = state.messages.iter().filter(|message| message.kind == LOOKUP).count() as u64;
        if self.accepted == self.answered + waiting {
            return Ok(());
        }
        let (accepted, answered) = (self.accepted, self.answered);
        Err(format!("{accepted} questions accepted, {answered} answered, {waiting} waiting"))
    }
}

/// How many keys are in (a, b].
fn range(a: u32, b: u32) -> u64 {
    match distance(a, b) {
        0 => 1 << 32,
        some => u64::from(some),
    }
}

/// 'Whatever waits can be delivered': the oldest message of each link is one that its receiver
/// expects.
fn judge_deliveries(state: &State) -> Result<(), String> {
    let mut met = [0_u64; 64];
    for message in &state.messages {
        let bit = 1 << message.to;
        let first = met[message.from as usize] & bit == 0;
        met[message.from as usize] |= bit;
        if first && !as_required(state, message) {
            return Err(format!("{message:?} cannot be delivered"));
        }
    }
    Ok(())
}
