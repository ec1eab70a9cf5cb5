//! Price cards (document 02, 2026-04): which slices are well formed, the order
//! of the refusals, offers, how cards change hub, and that a route (2026-06)
//! leaves them right.

mod common;

#[path = "cards/bytes.rs"]
mod bytes;
#[path = "cards/founding.rs"]
mod founding;
#[path = "cards/last_member.rs"]
mod last_member;
#[path = "cards/moves.rs"]
mod moves;
#[path = "cards/offers.rs"]
mod offers;
#[path = "cards/order.rs"]
mod order;
#[path = "cards/routes.rs"]
mod routes;
#[path = "cards/runs.rs"]
mod runs;
#[path = "cards/watched.rs"]
mod watched;
#[path = "cards/well_formed.rs"]
mod well_formed;

use ring_model::cards::{offer, step_cards};
use ring_model::{Answer, RECORD_WORDS};

/// Words of a card slice, cards in it, and where they start.
const SLICE: usize = 2113;
const MOST: usize = 512;
const FIRST: usize = 65;

/// A card as it stands in a slice: machine, revision, price, hub.
type Four = [u32; 4];

/// A slice made by hand.
fn slice(members: &[u32], cards: &[Four]) -> Vec<u32> {
    let mut words = vec![0; SLICE];
    words[0] = cards.len() as u32;
    for &hub in members {
        words[1 + hub as usize] = 1;
    }
    words[FIRST..FIRST + 4 * cards.len()].copy_from_slice(cards.as_flattened());
    words
}

/// The cards of a slice.
fn cards(words: &[u32]) -> Vec<Four> {
    let fours = words[FIRST..SLICE].chunks_exact(4);
    let card = |four: &[u32]| [four[0], four[1], four[2], four[3]];
    fours.take(words[0] as usize).map(card).collect()
}

/// The members of a slice.
fn members(words: &[u32]) -> Vec<u32> {
    let hubs = 0..64;
    hubs.filter(|&hub| words[1 + hub as usize] == 1).collect()
}

/// The hub that owns a machine: nearest clockwise from the machine on.
fn owner(identifiers: &[u32], members: &[u32], machine: u32) -> u32 {
    let away = |&hub: &u32| identifiers[hub as usize].wrapping_sub(machine);
    members.iter().copied().min_by_key(away).expect("a member")
}

/// So many cards of machines 7, 14, 21 and so on, each with its owner.
fn many(identifiers: &[u32], members: &[u32], count: usize) -> Vec<Four> {
    let machines = (1..=count as u32).map(|i| 7 * i);
    let card = |machine| [machine, 5, 100, owner(identifiers, members, machine)];
    machines.map(card).collect()
}

/// A record and a card slice, as they are lent.
#[derive(Clone, Debug, PartialEq)]
struct Both {
    words: Vec<u32>,
    cards: Vec<u32>,
}

impl Both {
    fn new(words: &[u32], cards: &[u32]) -> Both {
        Both {
            words: words.to_vec(),
            cards: cards.to_vec(),
        }
    }

    /// A step; one that is refused must change nothing.
    fn step(&mut self, operation: u32, x: u32, y: u32) -> Result<Answer, u32> {
        let before = self.clone();
        let outcome = step_cards(&mut self.words, &mut self.cards, operation, x, y);
        assert!(outcome.is_ok() || *self == before);
        outcome
    }

    /// An offer; one that is refused must change nothing, and none the record.
    fn offer(&mut self, machine: u32, revision: u32, price: u32) -> Result<(), u32> {
        let before = self.clone();
        let outcome = offer(&self.words, &mut self.cards, machine, revision, price);
        assert!(outcome.is_ok() || *self == before);
        outcome
    }

    /// The 1 or 2 that a step and an offer get alike. An offer that gets
    /// further may have a refusal of its own.
    fn both_refused(&self) -> Option<u32> {
        let mut copy = self.clone();
        let asked = copy.step(0, 0, 0).err();
        let offered = copy.offer(0, 0, 0).err();
        assert_eq!(asked, offered.filter(|&number| number <= 2));
        asked
    }
}

/// A record of three hubs, 100, 200 and 300, at rest; all of them inside.
fn three() -> Vec<u32> {
    let words = common::Run::settled(&THREE).words;
    assert_eq!(words.len(), RECORD_WORDS);
    words
}

const THREE: [u32; 3] = [100, 200, 300];
