//! The calls on bytes, engine and model side by side, for records and lengths of every kind.

use ring_model::bytes::{ring_owner, ring_step, NO_REFUSAL};
use ring_model::generator::Generator;
use ring_model::Command;

use crate::calls::{answer_of, words_of, Calls};
use crate::form::Form;
use crate::lent::{compare, Lent};
use crate::reached::Reached;
use crate::rolls::counts::Source;
use crate::rolls::roll::Roll;

/// A record and an output, twice.
pub struct Pair {
    calls: Calls,
    /// The record.
    pub record: Lent,
    /// The output.
    pub out: Lent,
}

impl Pair {
    /// Memory of these lengths, with random bytes in it.
    pub fn new(generator: &mut Generator, calls: Calls, record: usize, out: usize) -> Pair {
        Pair { calls, record: Lent::new(generator, record), out: Lent::new(generator, out) }
    }

    /// A step of both, compared; whether it was accepted.
    pub fn step(&mut self, command: Command, reached: &mut Reached) -> Result<bool, String> {
        let Command { operation, x, y } = command;
        let code = (self.calls.step)(self.record.engine(), operation, x, y, self.out.engine());
        let should = ring_step(self.record.expected(), operation, x, y, self.out.expected());
        reached.code(code);
        self.compare(code, should).map_err(|what| format!("step {operation} {x} {y}: {what}"))?;
        if code == NO_REFUSAL {
            reached.answer(&answer_of(self.out.look()));
        }
        Ok(code == NO_REFUSAL)
    }

    /// An owner query of both, compared.
    pub fn owner(&mut self, key: u32, reached: &mut Reached) -> Result<(), String> {
        let code = (self.calls.owner)(self.record.engine(), key, self.out.engine());
        let should = ring_owner(self.record.look(), key, self.out.expected());
        reached.code(code);
        self.compare(code, should).map_err(|what| format!("owner {key}: {what}"))
    }

    /// A roll call of both, compared.
    pub fn roll(
        &mut self,
        roll: &mut Roll,
        source: Source,
        reached: &mut Reached,
    ) -> Result<(), String> {
        let code = roll.call(self.calls, &mut self.record)?;
        reached.roll(source, code, roll, self.record.look());
        Ok(())
    }

    /// A founding by both, compared. The identifiers must not change either.
    pub fn found(
        &mut self,
        form: Form,
        identifiers: &mut Lent,
        reached: &mut Reached,
    ) -> Result<(), String> {
        let code = self.calls.found(form, self.record.engine(), identifiers.engine());
        let should = form.on_bytes(self.record.expected(), identifiers.look());
        reached.founding(form, code, &words_of(identifiers.look()));
        let compared = self
            .compare(code, should)
            .and_then(|()| identifiers.difference("identifiers").map_or(Ok(()), Err));
        let bytes = identifiers.look();
        compared.map_err(|what| format!("fresh {form:?} with the bytes {bytes:02X?}: {what}"))
    }

    fn compare(&self, code: u32, should: u32) -> Result<(), String> {
        compare(code, should, &[("record", &self.record), ("output", &self.out)])
    }
}
