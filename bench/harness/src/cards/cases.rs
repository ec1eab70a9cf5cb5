//! The calls that are measured where cards are lent.

use super::books::{fill, terms, Machines};
use super::contestants::Call;
use super::rings::{Ring, Step};

/// What is called.
#[derive(Clone, Copy, Debug, PartialEq, Eq)]
pub enum Kind {
    Step(Step),
    Offer(Card),
}

/// Which card is offered.
#[derive(Clone, Copy, Debug, PartialEq, Eq)]
pub enum Card {
    New,
    Higher,
    Equal,
}

impl Kind {
    /// Its name in the table.
    pub fn name(self) -> &'static str {
        match self {
            Kind::Step(step) => step.name(),
            Kind::Offer(Card::New) => "offer, new machine",
            Kind::Offer(Card::Higher) => "offer, higher revision of the last card",
            Kind::Offer(Card::Equal) => "offer, the last card again",
        }
    }
}

/// A call on a record and its cards.
pub struct Case {
    pub kind: Kind,
    pub n: u32,
    pub cards: usize,
    pub machines: Machines,
    pub call: Call,
    pub record: Vec<u8>,
    pub book: Vec<u8>,
    /// Does the call write to the cards?
    pub changes_cards: bool,
}

impl Case {
    fn new(kind: Kind, n: u32, cards: usize, machines: Machines) -> Case {
        let list = machines.list(cards);
        let (mut ring, call) = match kind {
            Kind::Step(step) => step.on(n),
            Kind::Offer(card) => (Ring::inside(n, false), offer(card, &list)),
        };
        fill(&mut ring, &list);
        let bytes = |words: &[u32]| words.iter().flat_map(|word| word.to_le_bytes()).collect();
        Case {
            kind,
            n,
            cards,
            machines,
            call,
            record: bytes(&ring.words),
            book: bytes(&ring.book),
            changes_cards: !matches!(kind, Kind::Step(Step::Found) | Kind::Offer(Card::Equal)),
        }
    }

    pub fn is_offer(&self) -> bool {
        matches!(self.kind, Kind::Offer(_))
    }

    /// For a message.
    pub fn place(&self) -> String {
        let (kind, machines) = (self.kind.name(), self.machines.name());
        format!("{kind} at n = {}, {} cards, {machines}", self.n, self.cards)
    }
}

/// A machine that none of the lists has.
const NEW: u32 = 7;

/// The offer of this card beside cards of these machines.
fn offer(card: Card, machines: &[u32]) -> Call {
    let (place, higher) = match card {
        Card::New => (machines.len(), 0),
        Card::Higher => (machines.len() - 1, 1),
        Card::Equal => (machines.len() - 1, 0),
    };
    let (revision, price) = terms(place);
    let machine = machines.get(place).copied().unwrap_or(NEW);
    Call::Offer(machine, revision + higher, price)
}

/// The hubs that are measured.
pub const HUBS: [u32; 3] = [1, 16, 64];
/// Whichever machines there are.
pub const MACHINES: [Machines; 3] = [Machines::Spread, Machines::OneBucket, Machines::FullBuckets];

/// All of them, in the order of the table.
pub fn all() -> Vec<Case> {
    let mut list = Vec::new();
    let found = Kind::Step(Step::Found);
    for n in HUBS {
        list.push(Case::new(found, n, 0, Machines::Spread));
        for machines in MACHINES {
            for cards in [128, 256, 384, 512] {
                list.push(Case::new(found, n, cards, machines));
            }
        }
    }
    for step in [Step::Entered, Step::Gone] {
        for n in [16, 64] {
            list.push(Case::new(Kind::Step(step), n, 512, Machines::Spread));
        }
    }
    for card in [Card::New, Card::Higher, Card::Equal] {
        for n in [16, 64] {
            for cards in [0, 256, 511] {
                if cards > 0 || card == Card::New {
                    list.push(Case::new(Kind::Offer(card), n, cards, Machines::Spread));
                }
            }
        }
    }
    list
}
