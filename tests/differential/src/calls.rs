//! The calls under test, as a value: the engine's, or the engine's with a fault planted in front of
//! it.

use ring_model::answer::Answer;
use ring_model::bytes::{ANSWER_BYTES, NO_REFUSAL};
use ring_model::record::RECORD_WORDS;
use ring_model::witness::StepCall;

use crate::cards::calls::{CardCalls, ENGINE_CARDS};
use crate::engine;
use crate::form::Form;

/// Bytes of a record.
pub const RECORD_BYTES: usize = 4 * RECORD_WORDS;

/// `ring_roll`: record, hub, and the outputs for the roll and for its length.
pub type RollCall = fn(&[u8], u32, &mut [u8], &mut [u8]) -> u32;
/// `ring_route`: record, hub, numbers and outcomes.
pub type Route = fn(&mut [u8], u32, &[u8], &mut [u8]) -> u32;
/// `ring_sheet_read`: text, identifiers, names and counts.
pub type SheetRead = fn(&[u8], &mut [u8], &mut [u8], &mut [u8]) -> u32;
/// `ring_sheet_write`: names, identifiers, text and counts.
pub type SheetWrite = fn(&[u8], &[u8], &mut [u8], &mut [u8]) -> u32;

/// The calls of one engine.
#[derive(Clone, Copy)]
pub struct Calls {
    /// `ring_fresh`.
    pub fresh: fn(&mut [u8], &[u8]) -> u32,
    /// `ring_fresh_by`.
    pub fresh_by: fn(&mut [u8], &[u8], u32) -> u32,
    /// `ring_step`.
    pub step: fn(&mut [u8], u32, u32, u32, &mut [u8]) -> u32,
    /// `ring_owner`.
    pub owner: fn(&[u8], u32, &mut [u8]) -> u32,
    /// `ring_roll`.
    pub roll: RollCall,
    /// `ring_route`.
    pub route: Route,
    /// The four calls with cards.
    pub cards: CardCalls,
    /// `ring_sheet_read`.
    pub sheet_read: SheetRead,
    /// `ring_sheet_write`.
    pub sheet_write: SheetWrite,
    /// The step on words, as the model's witness calls it.
    pub word_step: StepCall,
    /// Where `ringrun` is, seen from the repository's folder.
    pub ringrun: &'static str,
    /// Where `inspect` is, likewise. With a fault planted behind it, it is a command of the shell.
    pub inspect: &'static str,
}

/// The engine itself.
pub const ENGINE: Calls = Calls {
    fresh: engine::fresh,
    fresh_by: engine::fresh_by,
    step: engine::step,
    owner: engine::owner,
    roll: engine::roll,
    route: engine::route,
    cards: ENGINE_CARDS,
    sheet_read: engine::sheet_read,
    sheet_write: engine::sheet_write,
    word_step: engine_word_step,
    ringrun: "target/bin/ringrun",
    inspect: "target/bin/inspect",
};

impl Calls {
    /// Founds in either form.
    pub fn found(&self, form: Form, words: &mut [u8], identifiers: &[u8]) -> u32 {
        match form {
            Form::Smallest => (self.fresh)(words, identifiers),
            Form::By(founder) => (self.fresh_by)(words, identifiers, founder),
        }
    }
}

/// The engine's step on a record of words.
fn engine_word_step(words: &mut [u32], operation: u32, x: u32, y: u32) -> Result<Answer, u32> {
    let mut bytes: Vec<u8> = words.iter().flat_map(|word| word.to_le_bytes()).collect();
    let mut out = [0; ANSWER_BYTES];
    let code = engine::step(&mut bytes, operation, x, y, &mut out);
    if code != NO_REFUSAL {
        return Err(code);
    }
    for (i, word) in words.iter_mut().enumerate() {
        *word = word_at(&bytes, i);
    }
    Ok(answer_of(&out))
}

/// Word i of bytes, lowest byte first.
pub fn word_at(bytes: &[u8], i: usize) -> u32 {
    let four = &bytes[4 * i..4 * i + 4];
    u32::from_le_bytes([four[0], four[1], four[2], four[3]])
}

/// All whole words of bytes.
pub fn words_of(bytes: &[u8]) -> Vec<u32> {
    (0..bytes.len() / 4).map(|i| word_at(bytes, i)).collect()
}

/// Puts word i.
pub fn put_word(bytes: &mut [u8], i: usize, word: u32) {
    bytes[4 * i..4 * i + 4].copy_from_slice(&word.to_le_bytes());
}

/// Writes words from the first byte on.
pub fn put_words(bytes: &mut [u8], words: &[u32]) {
    for (four, word) in bytes.chunks_exact_mut(4).zip(words) {
        four.copy_from_slice(&word.to_le_bytes());
    }
}

/// The answer in an output of five words.
pub fn answer_of(out: &[u8]) -> Answer {
    Answer {
        kind: word_at(out, 0),
        hub: word_at(out, 1),
        number: word_at(out, 2),
        ticket: word_at(out, 3),
        hops: word_at(out, 4),
    }
}
