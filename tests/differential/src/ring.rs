//! A record under test beside the model's typed state, call by call.

use ring_model::bytes::{ANSWER_BYTES, NO_REFUSAL, OWNER_BYTES};
use ring_model::command::DELIVER;
use ring_model::generator::Generator;
use ring_model::queries::holds;
use ring_model::record::{State, RECORD_WORDS};
use ring_model::refusal::NO_HOLDER;
use ring_model::step::step_state;
use ring_model::{Answer, Command};

use crate::calls::{answer_of, put_words, Calls, RECORD_BYTES};
use crate::claims::Claims;
use crate::form::Form;
use crate::lent::Lent;
use crate::reached::Reached;
use crate::rolls::counts::Source as RollSource;
use crate::rolls::rest::Rest;
use crate::rolls::roll::Roll;
use crate::routes::counts::{RouteCounts, Source};
use crate::routes::route::Route;
use crate::states::{founded, state_of};

/// The engine's record in lent bytes, and the state that it should stand for.
pub struct Ring {
    calls: Calls,
    record: Lent,
    out: Lent,
    /// The model's state.
    pub state: State,
    words: Vec<u32>,
}

impl Ring {
    /// A record that holds this state. Behind it lie up to 12 more bytes, whole words and left-over
    /// ones.
    pub fn new(generator: &mut Generator, calls: Calls, state: State) -> Ring {
        let behind = generator.below(13) as usize;
        let longer = generator.below(5) as usize;
        let mut ring = Ring {
            calls,
            record: Lent::new(generator, RECORD_BYTES + behind),
            out: Lent::new(generator, ANSWER_BYTES + longer),
            state,
            words: vec![0; RECORD_WORDS],
        };
        ring.write_expected();
        let bytes = ring.record.look()[..RECORD_BYTES].to_vec();
        ring.record.put(&bytes);
        ring
    }

    /// A ring that the engine founds in this form, in memory with anything in it.
    pub fn founded(
        generator: &mut Generator,
        calls: Calls,
        identifiers: &[u32],
        form: Form,
    ) -> Result<Ring, String> {
        let mut ring = Ring::new(generator, calls, founded(identifiers, form));
        let mut bytes = vec![0; 4 * identifiers.len()];
        put_words(&mut bytes, identifiers);
        ring.record.engine()[..RECORD_BYTES].fill(generator.next_u32() as u8);
        let code = calls.found(form, ring.record.engine(), &bytes);
        if code != NO_REFUSAL {
            return Err(format!("fresh returns {code}, should return 0"));
        }
        ring.record.difference("record").map_or(Ok(ring), Err)
    }

    fn write_expected(&mut self) {
        self.state.write(&mut self.words);
        put_words(&mut self.record.expected()[..RECORD_BYTES], &self.words);
    }

    /// One step of both, compared. What the engine answered, or refused.
    pub fn step(
        &mut self,
        generator: &mut Generator,
        command: Command,
        reached: &mut Reached,
    ) -> Result<Result<Answer, u32>, String> {
        reached.about(command, &self.state);
        let Command { operation, x, y } = command;
        // The output held something else before each call, so that an unwritten answer is seen.
        self.out.fill(generator.next_u32() as u8);
        let code = (self.calls.step)(self.record.engine(), operation, x, y, self.out.engine());
        reached.code(code);
        let expected = step_state(&mut self.state, operation, x, y);
        if let Ok(answer) = &expected {
            self.write_expected();
            put_words(&mut self.out.expected()[..ANSWER_BYTES], &answer.words());
        }
        let should = expected.err().unwrap_or(NO_REFUSAL);
        self.compare(code, should)?;
        if code != NO_REFUSAL {
            return Ok(Err(code));
        }
        let answer = answer_of(self.out.engine());
        reached.answer(&answer);
        Ok(Ok(answer))
    }

    /// One route of both, compared, and asked one by one on a copy. The number returned.
    pub fn route(
        &mut self,
        route: &mut Route,
        source: Source,
        counts: &mut RouteCounts,
    ) -> Result<u32, String> {
        let before = self.record.look()[..RECORD_BYTES].to_vec();
        let code = route.call(self.calls, &mut self.record)?;
        counts.called(source, code, route, self.record.look());
        if code == NO_REFUSAL {
            let after = &self.record.look()[..RECORD_BYTES];
            counts.asked += route.one_by_one(self.calls, &before, after)?;
            self.state = state_of(after)?;
            self.write_expected();
        }
        Ok(code)
    }

    /// One owner query of both, compared.
    pub fn owner(
        &mut self,
        generator: &mut Generator,
        key: u32,
        reached: &mut Reached,
    ) -> Result<(), String> {
        self.out.fill(generator.next_u32() as u8);
        let code = (self.calls.owner)(self.record.engine(), key, self.out.engine());
        reached.code(code);
        let expected = (0..self.state.n()).find(|&node| holds(&self.state, node, key));
        if let Some(node) = expected {
            put_words(&mut self.out.expected()[..OWNER_BYTES], &[node]);
        }
        self.compare(code, if expected.is_some() { NO_REFUSAL } else { NO_HOLDER })
    }

    /// One roll call of both, compared.
    pub fn roll(
        &mut self,
        roll: &mut Roll,
        source: RollSource,
        reached: &mut Reached,
    ) -> Result<(), String> {
        let code = roll.call(self.calls, &mut self.record)?;
        reached.roll(source, code, roll, self.record.look());
        Ok(())
    }

    /// Where no message waits: the record beside the ledger.
    pub fn at_rest<'a>(
        &'a mut self,
        claims: &'a Claims,
        reached: &'a mut Reached,
    ) -> Option<Rest<'a>> {
        let (calls, record) = (self.calls, &mut self.record);
        self.state.messages.is_empty().then_some(Rest { calls, record, claims, reached })
    }

    fn compare(&self, code: u32, should: u32) -> Result<(), String> {
        if code != should {
            return Err(format!("returns {code}, should return {should}"));
        }
        let difference = self.record.difference("record").or_else(|| self.out.difference("output"));
        difference.map_or(Ok(()), Err)
    }

    /// Whether the engine delivers on this link, tried on a copy.
    pub fn delivers(&self, from: u32, to: u32, copy: &mut [u8]) -> Result<(), String> {
        copy.copy_from_slice(&self.record.look()[..RECORD_BYTES]);
        let mut out = [0; ANSWER_BYTES];
        match (self.calls.step)(copy, DELIVER, from, to, &mut out) {
            NO_REFUSAL => Ok(()),
            code => Err(format!("the message from {from} to {to} cannot be delivered: {code}")),
        }
    }

    /// The record's words, as engine and model have them.
    pub fn words(&self) -> &[u32] {
        &self.words
    }
}
