//! Price cards (document 02, 2026-04): a second lent slice beside the record,
//! its layout in 32-bit words and its typed form.

use crate::answer::{Answer, ENTERED, GONE};
use crate::ledger::Membership;
use crate::record::MAX_NODES;
use crate::refusal;

mod calls;
mod well_formed;

pub use calls::{
    fresh_by_cards, fresh_cards, offer, read, step_cards, step_cards_tallied, step_typed,
};
pub use well_formed::well_formed;

/// Words of a card slice; later ones are neither read nor written.
pub const CARD_SLICE_WORDS: usize = 2113;
/// Most cards in a slice.
pub const MAX_CARDS: usize = 512;
/// Words of a card.
pub const CARD_WORDS: usize = 4;
/// The word of hub 0: 1 if it is a member.
pub const FIRST_MEMBER: usize = 1;
/// Where the first card starts.
pub const FIRST_CARD: usize = 65;

// The three parts of the slice meet without a gap and end with the slice.
const _: () = assert!(FIRST_MEMBER + MAX_NODES == FIRST_CARD);
const _: () = assert!(FIRST_CARD + CARD_WORDS * MAX_CARDS == CARD_SLICE_WORDS);

/// A price card, its four words in their order.
#[derive(Clone, Copy, Debug, PartialEq, Eq)]
pub struct Card {
    /// The machine whose price it is; no two cards have the same.
    pub machine: u32,
    /// The higher of two revisions counts.
    pub revision: u32,
    /// The price in cents.
    pub price: u32,
    /// The hub that keeps it.
    pub hub: u32,
}

impl Card {
    fn from_words(words: &[u32]) -> Card {
        Card {
            machine: words[0],
            revision: words[1],
            price: words[2],
            hub: words[3],
        }
    }

    /// The four words.
    pub fn words(&self) -> [u32; CARD_WORDS] {
        [self.machine, self.revision, self.price, self.hub]
    }
}

/// The typed form of a card slice that is well formed beside its record.
#[derive(Clone, Debug, PartialEq, Eq)]
pub struct Cards {
    /// The hubs whose words are 1, with the record's identifiers.
    pub membership: Membership,
    /// The cards, in their order.
    pub kept: Vec<Card>,
}

impl Cards {
    /// What comes with a ring just founded: nothing kept yet, and nobody in
    /// the ledger but the founder.
    pub fn new(identifiers: &[u32], founder: u32) -> Cards {
        Cards {
            membership: Membership::new(identifiers, founder),
            kept: Vec::new(),
        }
    }

    /// Asks whether the slice is well formed beside a record with these
    /// identifiers, then reads it. The caller has made sure that it is long
    /// enough.
    pub fn read(words: &[u32], identifiers: &[u32]) -> Result<Cards, u32> {
        if !well_formed(words, identifiers) {
            return Err(refusal::NOT_WELL_FORMED);
        }
        Ok(Cards {
            membership: Membership::of(identifiers, &members(words)),
            kept: cards(words),
        })
    }

    /// Writes the slice back: exactly its 2,113 words, the unused ones 0. The
    /// caller has made sure that there are that many.
    pub fn write(&self, words: &mut [u32]) {
        let slice = &mut words[..CARD_SLICE_WORDS];
        slice.fill(0);
        slice[0] = self.kept.len() as u32;
        for &hub in self.membership.members() {
            slice[FIRST_MEMBER + hub as usize] = 1;
        }
        let places = slice[FIRST_CARD..].chunks_exact_mut(CARD_WORDS);
        for (place, card) in places.zip(&self.kept) {
            place.copy_from_slice(&card.words());
        }
    }

    /// Would this answer strike off the only member?
    pub fn strikes_off_the_last(&self, answer: &Answer) -> bool {
        let members = self.membership.members();
        answer.kind == GONE && members.len() == 1 && members.contains(&answer.hub)
    }

    /// Takes in an answer. Where the ledger changes, every card goes to its
    /// owner by the new one.
    pub fn feed(&mut self, answer: &Answer) {
        self.membership.feed(answer);
        if matches!(answer.kind, ENTERED | GONE) {
            let owner = |machine| self.membership.owner(machine);
            for card in &mut self.kept {
                card.hub = owner(card.machine).expect("there is a member");
            }
        }
    }

    /// Takes in an offered card, and finds its hub. After a refusal the cards
    /// are as they were.
    pub fn offer(&mut self, machine: u32, revision: u32, price: u32) -> Result<(), u32> {
        self.offer_questions(machine, revision, price)?;
        let hub = self.membership.owner(machine).expect("there is a member");
        let offered = Card {
            machine,
            revision,
            price,
            hub,
        };
        match self.place(machine) {
            Some(place) if revision > self.kept[place].revision => self.kept[place] = offered,
            Some(_) => {}
            None => self.kept.push(offered),
        }
        Ok(())
    }

    /// 22, 23 and 24, in this order.
    fn offer_questions(&self, machine: u32, revision: u32, price: u32) -> Result<(), u32> {
        let kept = self.place(machine).map(|place| self.kept[place]);
        if kept.is_some_and(|kept| revision < kept.revision) {
            return Err(refusal::REVISION_LOWER);
        }
        if kept.is_some_and(|kept| revision == kept.revision && price != kept.price) {
            return Err(refusal::PRICE_DIFFERS);
        }
        if kept.is_none() && self.kept.len() == MAX_CARDS {
            return Err(refusal::CARDS_FULL);
        }
        Ok(())
    }

    /// Where the machine's card stands, if it has one.
    fn place(&self, machine: u32) -> Option<usize> {
        self.kept.iter().position(|card| card.machine == machine)
    }
}

/// The hubs whose words are 1.
fn members(words: &[u32]) -> Vec<u32> {
    let hubs = 0..MAX_NODES as u32;
    hubs.filter(|&hub| words[FIRST_MEMBER + hub as usize] == 1)
        .collect()
}

/// As many cards as word 0 says, or all there is room for.
fn cards(words: &[u32]) -> Vec<Card> {
    let places = words[FIRST_CARD..CARD_SLICE_WORDS].chunks_exact(CARD_WORDS);
    let kept = places.take(words[0] as usize);
    kept.map(Card::from_words).collect()
}
