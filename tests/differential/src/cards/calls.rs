//! The four calls with cards, as a value.

use ring_model::cards::CARD_SLICE_WORDS;

use crate::engine;
use crate::form::Form;

/// Bytes of a card slice.
pub const CARDS_BYTES: usize = 4 * CARD_SLICE_WORDS;

/// `ring_fresh_cards`: record, cards and identifiers.
pub type FreshCards = fn(&mut [u8], &mut [u8], &[u8]) -> u32;
/// `ring_fresh_by_cards`: the same and the founder.
pub type FreshByCards = fn(&mut [u8], &mut [u8], &[u8], u32) -> u32;
/// `ring_step_cards`: record, cards, the command and the output.
pub type StepCards = fn(&mut [u8], &mut [u8], [u32; 3], &mut [u8]) -> u32;
/// `ring_offer`: record, cards, and machine, revision and price.
pub type Offer = fn(&[u8], &mut [u8], [u32; 3]) -> u32;

/// The calls with cards of one engine.
#[derive(Clone, Copy)]
pub struct CardCalls {
    /// `ring_fresh_cards`.
    pub fresh: FreshCards,
    /// `ring_fresh_by_cards`.
    pub fresh_by: FreshByCards,
    /// `ring_step_cards`.
    pub step: StepCards,
    /// `ring_offer`.
    pub offer: Offer,
}

/// The engine's.
pub const ENGINE_CARDS: CardCalls = CardCalls {
    fresh: engine::fresh_cards,
    fresh_by: engine::fresh_by_cards,
    step: engine::step_cards,
    offer: engine::offer,
};

impl CardCalls {
    /// Founds in either form.
    pub fn found(&self, form: Form, words: &mut [u8], cards: &mut [u8], identifiers: &[u8]) -> u32 {
        match form {
            Form::Smallest => (self.fresh)(words, cards, identifiers),
            Form::By(founder) => (self.fresh_by)(words, cards, identifiers, founder),
        }
    }
}
