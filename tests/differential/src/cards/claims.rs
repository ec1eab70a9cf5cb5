//! The claims of 2026-04 about a ring with cards from fresh on, by code of their own: they are fed
//! the answers and the accepted offers, and look at the slice alone.

use ring_model::answer::{ENTERED, GONE};
use ring_model::Answer;

/// Where the words of the hubs and the cards start.
const MEMBERS: usize = 1;
const CARDS: usize = 65;

/// What answers and offers alone say of a run.
pub struct CardClaims {
    /// Identifiers and hubs, lowest identifier first.
    sorted: Vec<(u32, u32)>,
    ledger: [bool; 64],
    /// Machine, revision and price of each card, in order.
    plain: Vec<[u32; 3]>,
}

impl CardClaims {
    /// Of the ring that this hub founds with these identifiers: no card, the founder alone.
    pub fn new(identifiers: &[u32], founder: u32) -> CardClaims {
        let mut sorted: Vec<(u32, u32)> = identifiers.iter().copied().zip(0..).collect();
        sorted.sort_unstable();
        let mut ledger = [false; 64];
        ledger[founder as usize] = true;
        CardClaims { sorted, ledger, plain: Vec::new() }
    }

    /// Takes in a step's answer.
    pub fn answered(&mut self, answer: &Answer) {
        match answer.kind {
            ENTERED => self.ledger[answer.hub as usize] = true,
            GONE => self.ledger[answer.hub as usize] = false,
            _ => {}
        }
    }

    /// Takes in an offer that was accepted: in the place of the machine's card, or last.
    pub fn accepted(&mut self, offered: [u32; 3]) {
        match self.plain.iter_mut().find(|card| card[0] == offered[0]) {
            Some(card) => *card = offered,
            None => self.plain.push(offered),
        }
    }

    /// Judges a slice.
    pub fn judge(&self, slice: &[u32]) -> Result<(), String> {
        self.judge_members(slice)?;
        self.judge_list(slice)?;
        self.judge_hubs(slice)
    }

    /// The members' words are the ledger.
    fn judge_members(&self, slice: &[u32]) -> Result<(), String> {
        for (hub, &is_member) in self.ledger.iter().enumerate() {
            let word = slice[MEMBERS + hub];
            if word != u32::from(is_member) {
                return Err(format!("hub {hub} has the word {word}, in the ledger: {is_member}"));
            }
        }
        Ok(())
    }

    /// No card is lost, and none is there twice: they are those of the offers alone.
    fn judge_list(&self, slice: &[u32]) -> Result<(), String> {
        let (count, should) = (slice[0], self.plain.len());
        if count as usize != should {
            return Err(format!("{count} cards are kept, the offers alone give {should}"));
        }
        for (place, card) in self.plain.iter().enumerate() {
            let kept = &slice[CARDS + 4 * place..][..3];
            if kept != card {
                return Err(format!("card {place} is {kept:?}, the offers alone give {card:?}"));
            }
        }
        Ok(())
    }

    /// Each card is with its owner by the ledger: the first member clockwise from the machine's
    /// number on.
    fn judge_hubs(&self, slice: &[u32]) -> Result<(), String> {
        let in_ledger = |&&(_, hub): &&(u32, u32)| self.ledger[hub as usize];
        let members: Vec<(u32, u32)> = self.sorted.iter().filter(in_ledger).copied().collect();
        for (place, [machine, ..]) in self.plain.iter().enumerate() {
            let ahead = members.partition_point(|(identifier, _)| identifier < machine);
            let owner = members.get(ahead).or(members.first()).map(|&(_, hub)| hub);
            let hub = slice[CARDS + 4 * place + 3];
            if owner != Some(hub) {
                return Err(format!("card {place} is with hub {hub}, its owner is {owner:?}"));
            }
        }
        Ok(())
    }
}
