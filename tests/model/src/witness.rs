//! A checker of demand 3, and of what document 02's 2026-07 claims beside it,
//! fed every call of a run from a fresh ring.
//!
//! Each prefix of a list is a list too, so the five claims are checked after
//! every call, and the one about rings at rest wherever no message waits. The
//! checker takes nothing from the engine under test but what the demand speaks
//! of: the outcomes, and the record after each call.

use std::collections::HashSet;

use crate::answer::{Answer, FOUND};
use crate::command::{Command, DELIVER};
use crate::generator::Generator;
use crate::ledger::{holders, telling_keys, waiting, Lookups, Membership};
use crate::record::{State, RECORD_WORDS};
use crate::rest::{self, Unrest};
use crate::step::step;

/// A step call, of the model or of an engine beside it.
pub type StepCall = fn(&mut [u32], u32, u32, u32) -> Result<Answer, u32>;

/// How many random keys are tried after each call besides the fixed ones.
const RANDOM_KEYS: usize = 4;

/// A claim of demand 3 that does not hold, or the one of 2026-07.
#[derive(Clone, Debug, PartialEq, Eq)]
pub enum Violation {
    /// More than one node holds the key.
    SeveralHolders(u32, Vec<u32>),
    /// A key, its holder, and the owner in the membership, which differs.
    HolderIsNotOwner(u32, u32, Option<u32>),
    /// A found answer, and the owner in the membership, which differs.
    FoundNamesAnother(Answer, Option<u32>),
    /// Lookups accepted and answered, and the waiting ones that do not make
    /// up the difference.
    LookupsDoNotAddUp(Lookups, u64),
    /// A ticket that two found answers have.
    TicketTwice(u32),
    /// Sender and receiver of a message in flight whose delivery is refused,
    /// and the number.
    DeliverRefused(u32, u32, u32),
    /// No message waits, and the rolls or the owners are not as they should
    /// be then.
    NotAtRest(Unrest),
    /// The record cannot be judged: it is refused with this number.
    RecordRefused(u32),
}

/// The checker. Start it when fresh is accepted, feed it each call.
#[derive(Clone, Debug)]
pub struct Witness {
    membership: Membership,
    lookups: Lookups,
    tickets: HashSet<u32>,
    keys: Vec<u32>,
    generator: Generator,
    step: StepCall,
}

impl Witness {
    /// A witness of the ring that this node founded with these identifiers;
    /// deliveries are tried with the model's own step.
    pub fn new(identifiers: &[u32], founder: u32) -> Witness {
        Witness::with_step(identifiers, founder, step)
    }

    /// The same, with deliveries tried by the step of the engine under test.
    pub fn with_step(identifiers: &[u32], founder: u32, step: StepCall) -> Witness {
        Witness {
            membership: Membership::new(identifiers, founder),
            lookups: Lookups::default(),
            tickets: HashSet::new(),
            keys: telling_keys(identifiers),
            generator: Generator::new(identifiers.len() as u64),
            step,
        }
    }

    /// The membership as the calls so far left it.
    pub fn membership(&self) -> &Membership {
        &self.membership
    }

    /// The lookups counted so far.
    pub fn lookups(&self) -> Lookups {
        self.lookups
    }

    /// Takes in one call with its outcome, and judges the record after it.
    pub fn observe(
        &mut self,
        command: Command,
        outcome: &Result<Answer, u32>,
        record: &[u32],
    ) -> Result<(), Violation> {
        self.take_in(command, outcome)?;
        self.judge(record)
    }

    /// Claims (b) and (d) on one outcome. 'The ledger at a call is the one
    /// that the calls before it left', so it is asked before it is fed.
    /// 'Every refusal leaves it as it is.'
    pub fn take_in(
        &mut self,
        command: Command,
        outcome: &Result<Answer, u32>,
    ) -> Result<(), Violation> {
        let Ok(answer) = outcome else {
            return Ok(());
        };
        if answer.kind == FOUND {
            let owner = self.membership.owner(answer.number);
            if owner != Some(answer.hub) {
                return Err(Violation::FoundNamesAnother(*answer, owner));
            }
            if !self.tickets.insert(answer.ticket) {
                return Err(Violation::TicketTwice(answer.ticket));
            }
        }
        self.lookups.feed(command, answer);
        self.membership.feed(answer);
        Ok(())
    }

    /// Claims (a), (c) and (e) on the record after a call, and at rest what is
    /// claimed then.
    pub fn judge(&mut self, record: &[u32]) -> Result<(), Violation> {
        let state = State::read(record).map_err(Violation::RecordRefused)?;
        let mut keys = self.keys.clone();
        keys.extend((0..RANDOM_KEYS).map(|_| self.generator.next_u32()));
        self.judge_holders(&state, &keys)?;
        self.judge_lookups(&state)?;
        self.judge_deliveries(&state, record)?;
        if state.messages.is_empty() {
            rest::judge(&state, &self.membership, &keys).map_err(Violation::NotAtRest)?;
        }
        Ok(())
    }

    /// (a): every key has at most one holder, and that is the owner.
    fn judge_holders(&self, state: &State, keys: &[u32]) -> Result<(), Violation> {
        keys.iter().try_for_each(|&key| self.judge_key(state, key))
    }

    fn judge_key(&self, state: &State, key: u32) -> Result<(), Violation> {
        let holders = holders(state, key);
        match holders.as_slice() {
            [] => Ok(()),
            &[holder] => {
                let owner = self.membership.owner(key);
                if owner == Some(holder) {
                    return Ok(());
                }
                Err(Violation::HolderIsNotOwner(key, holder, owner))
            }
            _ => Err(Violation::SeveralHolders(key, holders)),
        }
    }

    /// (c): accepted = answered + waiting.
    fn judge_lookups(&self, state: &State) -> Result<(), Violation> {
        let waiting = waiting(state);
        if self.lookups.accepted == self.lookups.answered + waiting {
            return Ok(());
        }
        Err(Violation::LookupsDoNotAddUp(self.lookups, waiting))
    }

    /// (e): each link with a message in flight delivers. Tried on a copy, and
    /// once a link: a deliver call names the link, not the message.
    fn judge_deliveries(&self, state: &State, record: &[u32]) -> Result<(), Violation> {
        let mut links: Vec<(u32, u32)> = state.messages.iter().map(|m| (m.from, m.to)).collect();
        links.sort_unstable();
        links.dedup();
        let mut copy = [0; RECORD_WORDS];
        for (from, to) in links {
            copy.copy_from_slice(&record[..RECORD_WORDS]);
            if let Err(number) = (self.step)(&mut copy, DELIVER, from, to) {
                return Err(Violation::DeliverRefused(from, to, number));
            }
        }
        Ok(())
    }
}
