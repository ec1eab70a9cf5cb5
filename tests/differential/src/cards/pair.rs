//! The calls with cards on bytes, engine and model side by side, for slices and lengths of every
//! kind.

use ring_model::bytes::{ring_offer, ring_step_cards};
use ring_model::generator::Generator;
use ring_model::Command;

use super::counts::CardCounts;
use crate::calls::Calls;
use crate::form::Form;
use crate::lent::{compare, Lent};

/// A record, cards and an output, twice.
pub struct CardPair {
    calls: Calls,
    /// The record.
    pub record: Lent,
    /// The cards.
    pub cards: Lent,
    /// The output.
    pub out: Lent,
}

impl CardPair {
    /// Memory of these lengths, with random bytes in it.
    pub fn new(generator: &mut Generator, calls: Calls, lengths: [usize; 3]) -> CardPair {
        let [record, cards, out] = lengths.map(|length| Lent::new(generator, length));
        CardPair { calls, record, cards, out }
    }

    /// A step of both, compared; its number.
    pub fn step(&mut self, command: Command, counts: &mut CardCounts) -> Result<u32, String> {
        let Command { operation, x, y } = command;
        let code = (self.calls.cards.step)(
            self.record.engine(),
            self.cards.engine(),
            [operation, x, y],
            self.out.engine(),
        );
        let should = ring_step_cards(
            self.record.expected(),
            self.cards.expected(),
            operation,
            x,
            y,
            self.out.expected(),
        );
        self.compare(code, should).map_err(|what| format!("step {operation} {x} {y}: {what}"))?;
        counts.step_on_bytes(code, self.record.look(), self.cards.look());
        Ok(code)
    }

    /// An offer of both, compared; its number.
    pub fn offer(&mut self, offered: [u32; 3], counts: &mut CardCounts) -> Result<u32, String> {
        let [machine, revision, price] = offered;
        let code = (self.calls.cards.offer)(self.record.engine(), self.cards.engine(), offered);
        let should =
            ring_offer(self.record.look(), self.cards.expected(), machine, revision, price);
        self.compare(code, should).map_err(|what| format!("offer {offered:?}: {what}"))?;
        counts.offer_on_bytes(code, self.record.look(), self.cards.look());
        Ok(code)
    }

    /// A founding by both, compared. The identifiers must not change either.
    pub fn found(
        &mut self,
        form: Form,
        identifiers: &mut Lent,
        counts: &mut CardCounts,
    ) -> Result<(), String> {
        let (record, cards) = (self.record.engine(), self.cards.engine());
        let code = self.calls.cards.found(form, record, cards, identifiers.engine());
        let (record, cards) = (self.record.expected(), self.cards.expected());
        let should = form.with_cards(record, cards, identifiers.look());
        let compared = self
            .compare(code, should)
            .and_then(|()| identifiers.difference("identifiers").map_or(Ok(()), Err));
        let bytes = identifiers.look();
        compared.map_err(|what| format!("fresh with cards {form:?} {bytes:02X?}: {what}"))?;
        counts.founded(form, code, self.record.look());
        Ok(())
    }

    fn compare(&self, code: u32, should: u32) -> Result<(), String> {
        let lent = [("record", &self.record), ("cards", &self.cards), ("output", &self.out)];
        compare(code, should, &lent)
    }
}
