//! A ring at rest (document 02, 2026-07): where no message waits, a roll
//! called from a member lists the whole ledger and nobody else, none twice and
//! in clockwise order; and every key has the ledger's owner as its holder.

use crate::clockwise::distance;
use crate::ledger::Membership;
use crate::queries::{owner_state, roll_state};
use crate::record::State;

/// Something that is not so of a ring at rest. The roll's cases name the
/// member from which it was called, then what is wrong with it.
#[derive(Clone, Debug, PartialEq, Eq)]
pub enum Unrest {
    /// So many messages wait: of such a ring nothing is claimed.
    MessagesWait(usize),
    /// The roll is refused with this number.
    RollRefused(u32, u32),
    /// It begins with another, or with nobody.
    BeginsElsewhere(u32, Option<u32>),
    /// It has this node, which is no member.
    NoMember(u32, u32),
    /// It has this member more than once.
    Twice(u32, u32),
    /// It has this member behind one that is further on.
    NotClockwise(u32, u32),
    /// It lacks this member.
    LeftOut(u32, u32),
    /// A key, what the owner query says, and the owner in the membership,
    /// which differs.
    OwnerIsAnother(u32, Result<u32, u32>, Option<u32>),
}

/// Judges a state: the roll from each member, and the owner of these keys.
pub fn judge(state: &State, membership: &Membership, keys: &[u32]) -> Result<(), Unrest> {
    match state.messages.len() {
        0 => {}
        waiting => return Err(Unrest::MessagesWait(waiting)),
    }
    for &member in membership.members() {
        let roll = roll_state(state, member);
        judge_roll(
            membership,
            member,
            roll.as_deref().map_err(|&number| number),
        )?;
    }
    keys.iter()
        .try_for_each(|&key| judge_owner(membership, key, owner_state(state, key)))
}

/// Judges what a roll call from a member comes to, of the model or of an
/// engine beside it.
pub fn judge_roll(
    membership: &Membership,
    start: u32,
    roll: Result<&[u32], u32>,
) -> Result<(), Unrest> {
    let roll = roll.map_err(|number| Unrest::RollRefused(start, number))?;
    if roll.first() != Some(&start) {
        return Err(Unrest::BeginsElsewhere(start, roll.first().copied()));
    }
    for (place, &node) in roll.iter().enumerate() {
        let before = &roll[..place];
        if !membership.members().contains(&node) {
            return Err(Unrest::NoMember(start, node));
        }
        if before.contains(&node) {
            return Err(Unrest::Twice(start, node));
        }
        let way = |node: u32| distance(membership.identifier(start), membership.identifier(node));
        if before.last().is_some_and(|&last| way(node) <= way(last)) {
            return Err(Unrest::NotClockwise(start, node));
        }
    }
    let lacks = |node: &&u32| !roll.contains(node);
    let left_out = membership.members().iter().find(lacks);
    left_out.map_or(Ok(()), |&node| Err(Unrest::LeftOut(start, node)))
}

/// Judges what an owner query says.
pub fn judge_owner(
    membership: &Membership,
    key: u32,
    answer: Result<u32, u32>,
) -> Result<(), Unrest> {
    let owner = membership.owner(key);
    if owner.is_some() && answer.ok() == owner {
        return Ok(());
    }
    Err(Unrest::OwnerIsAnother(key, answer, owner))
}
