//! Which card is offered next.

use ring_model::cards::{Card, Cards, MAX_CARDS};
use ring_model::generator::Generator;

use super::counts::CardCounts;
use super::machines::machines;

/// Most machines of a run that has few.
const FEW: u32 = 12;
/// From so many on they are many: a slice is about to be full.
pub const MANY: usize = MAX_CARDS - 5;

/// The machines of a run.
pub struct Stock {
    /// In the order in which they are offered at first.
    pub machines: Vec<u32>,
    /// So many offers of new machines come first.
    pub at_first: usize,
}

impl Stock {
    /// Few machines, so that revisions meet, or more than a slice keeps.
    pub fn new(generator: &mut Generator, identifiers: &[u32], counts: &mut CardCounts) -> Stock {
        let at_first = match generator.below(6) {
            0..=2 => 0,
            3 => generator.below(MAX_CARDS as u32) as usize,
            _ => MANY + generator.below(6) as usize,
        };
        let count = match at_first {
            0 => 1 + generator.below(FEW) as usize,
            _ => MAX_CARDS + 8,
        };
        let (making, machines) = machines(generator, identifiers, count);
        counts.sets[making as usize] += u64::from(at_first >= MANY);
        Stock { machines, at_first }
    }

    /// The next machine, while each is offered once.
    pub fn new_offer(&self, generator: &mut Generator, cards: &Cards) -> [u32; 3] {
        let machine = self.machines[cards.kept.len()];
        [machine, some_revision(generator), generator.below(3)]
    }
}

/// An offer for a kept machine or one of these, mostly around what is kept.
pub fn some_offer(generator: &mut Generator, machines: &[u32], cards: &Cards) -> [u32; 3] {
    match generator.pick(&cards.kept) {
        Some(card) if generator.chance(60) => around(generator, card),
        _ => {
            let machine = generator.pick(machines).copied().unwrap_or(0);
            match cards.kept.iter().find(|card| card.machine == machine) {
                Some(card) => around(generator, card),
                None => [machine, some_revision(generator), generator.below(3)],
            }
        }
    }
}

/// An offer for a machine that has a card.
fn around(generator: &mut Generator, card: &Card) -> [u32; 3] {
    let revision = match generator.below(8) {
        0 => some_revision(generator),
        1 => card.revision.wrapping_sub(1),
        2 => card.revision ^ 1 << 31,
        3 | 4 => card.revision.saturating_add(1),
        _ => card.revision,
    };
    let price = match generator.below(6) {
        0 => card.price.wrapping_add(1),
        1 => generator.next_u32(),
        _ => card.price,
    };
    [card.machine, revision, price]
}

/// Mostly small, now and then at the limits.
fn some_revision(generator: &mut Generator) -> u32 {
    match generator.below(8) {
        0 => u32::MAX - generator.below(2),
        1 => (1 << 31) - generator.below(2),
        2 => generator.next_u32(),
        _ => generator.below(4),
    }
}
