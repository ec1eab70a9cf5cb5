//! The two forms of founding (document 02, 2026-02): by the smallest identifier, or by the hub that
//! the caller names.

use ring_model::bytes::{ring_fresh, ring_fresh_by, ring_fresh_by_cards, ring_fresh_cards};
use ring_model::frames::FOUNDER;
use ring_model::generator::Generator;
use ring_model::step::{fresh, fresh_by, smallest};

/// A form of founding.
#[derive(Clone, Copy, Debug)]
pub enum Form {
    /// No founder is named.
    Smallest,
    /// This founder is named; it may be none of the hubs.
    By(u32),
}

/// What a founding frame of `ringrun` or `inspect` stands for.
pub const FRAME: Form = Form::By(FOUNDER);

impl Form {
    /// Either form for a ring of n hubs, by any of them.
    pub fn some(generator: &mut Generator, n: usize) -> Form {
        if generator.chance(50) {
            return Form::Smallest;
        }
        Form::By(generator.below(n as u32))
    }

    /// The hub that founds.
    pub fn founder(self, identifiers: &[u32]) -> u32 {
        match self {
            Form::Smallest => smallest(identifiers),
            Form::By(founder) => founder,
        }
    }

    /// Founds on words, as the model has it.
    pub fn on_words(self, words: &mut [u32], identifiers: &[u32]) -> Result<(), u32> {
        match self {
            Form::Smallest => fresh(words, identifiers),
            Form::By(founder) => fresh_by(words, identifiers, founder),
        }
    }

    /// Founds on bytes, as the model has it.
    pub fn on_bytes(self, words: &mut [u8], identifiers: &[u8]) -> u32 {
        match self {
            Form::Smallest => ring_fresh(words, identifiers),
            Form::By(founder) => ring_fresh_by(words, identifiers, founder),
        }
    }

    /// Founds with cards on bytes, as the model has it.
    pub fn with_cards(self, words: &mut [u8], cards: &mut [u8], identifiers: &[u8]) -> u32 {
        match self {
            Form::Smallest => ring_fresh_cards(words, cards, identifiers),
            Form::By(founder) => ring_fresh_by_cards(words, cards, identifiers, founder),
        }
    }
}
