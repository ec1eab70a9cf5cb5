//! What the ledger says of rolls and owners where no message waits (document 02, 2026-07).

use super::Claims;

impl Claims {
    /// The identifiers of the ring, in their order.
    pub fn identifiers(&self) -> &[u32] {
        &self.sorted
    }

    /// The ledger, a bit for each node in that order.
    pub fn ledger(&self) -> u64 {
        self.members
    }

    /// The members in that order.
    pub fn in_order(&self) -> Vec<u32> {
        let all = self.by_identifier.iter().enumerate();
        all.filter(|(place, _)| self.members >> place & 1 == 1).map(|(_, &node)| node).collect()
    }

    /// What a roll from a member came to: it must list the whole ledger in clockwise order, each
    /// member once and nobody else.
    pub fn judge_roll(&self, start: u32, roll: &Result<Vec<u32>, u32>) -> Result<(), String> {
        let mut should = self.in_order();
        let Some(place) = should.iter().position(|&node| node == start) else {
            return Err(format!("a roll from node {start}, which is not in the ledger"));
        };
        should.rotate_left(place);
        if roll.as_ref() == Ok(&should) {
            return Ok(());
        }
        Err(format!("at rest the roll from {start} is {roll:?}, by the ledger {should:?}"))
    }

    /// Who is said to own a key: it must be the ledger's owner, and never nobody (15).
    pub fn judge_owner(&self, key: u32, owner: Result<u32, u32>) -> Result<(), String> {
        let should = self.owner(key);
        if should.is_some() && owner.ok() == should {
            return Ok(());
        }
        Err(format!("at rest the owner of {key} is {owner:?}, by the ledger {should:?}"))
    }
}
