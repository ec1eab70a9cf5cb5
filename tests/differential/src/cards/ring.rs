//! A record and its cards under test beside the model's typed forms, call by call.

use ring_model::bytes::{ANSWER_BYTES, NO_REFUSAL};
use ring_model::cards::{step_typed, Cards, CARD_SLICE_WORDS};
use ring_model::command::DELIVER;
use ring_model::generator::Generator;
use ring_model::record::{State, RECORD_WORDS};
use ring_model::{Answer, Command};

use super::calls::CARDS_BYTES;
use super::counts::CardCounts;
use crate::calls::{answer_of, put_words, words_of, Calls, RECORD_BYTES};
use crate::claims::Claims;
use crate::form::Form;
use crate::lent::{compare, Lent};
use crate::reached::Reached;
use crate::rolls::rest::Rest;
use crate::routes::counts::{RouteCounts, Source};
use crate::routes::route::Route;
use crate::states::{founded, state_of};

/// The engine's record and cards in lent bytes, and what they should stand for.
pub struct CardRing {
    calls: Calls,
    record: Lent,
    cards: Lent,
    out: Lent,
    /// The model's state.
    pub state: State,
    /// The model's cards.
    pub typed: Cards,
}

/// What a step without cards returned, answered, and made of a copy of the record.
pub struct Alone {
    code: u32,
    out: [u8; ANSWER_BYTES],
    record: Vec<u8>,
}

impl CardRing {
    /// A record and a slice that hold these. Behind each lie up to 12 more bytes.
    pub fn new(generator: &mut Generator, calls: Calls, state: State, typed: Cards) -> CardRing {
        let [behind, further] = [(); 2].map(|()| generator.below(13) as usize);
        let longer = generator.below(5) as usize;
        let mut ring = CardRing {
            calls,
            record: Lent::new(generator, RECORD_BYTES + behind),
            cards: Lent::new(generator, CARDS_BYTES + further),
            out: Lent::new(generator, ANSWER_BYTES + longer),
            state,
            typed,
        };
        ring.write_expected();
        let [record, cards] = [ring.record.look().to_vec(), ring.cards.look().to_vec()];
        ring.record.put(&record);
        ring.cards.put(&cards);
        ring
    }

    /// A ring and its cards that the engine founds in this form, in memory with anything in it.
    pub fn founded(
        generator: &mut Generator,
        calls: Calls,
        identifiers: &[u32],
        form: Form,
    ) -> Result<CardRing, String> {
        let typed = Cards::new(identifiers, form.founder(identifiers));
        let mut ring = CardRing::new(generator, calls, founded(identifiers, form), typed);
        let mut bytes = vec![0; 4 * identifiers.len()];
        put_words(&mut bytes, identifiers);
        ring.record.engine()[..RECORD_BYTES].fill(generator.next_u32() as u8);
        ring.cards.engine()[..CARDS_BYTES].fill(generator.next_u32() as u8);
        let code = calls.cards.found(form, ring.record.engine(), ring.cards.engine(), &bytes);
        ring.compare(code, NO_REFUSAL)?;
        Ok(ring)
    }

    /// One step of both, compared. What the engine answered, or refused.
    pub fn step(
        &mut self,
        generator: &mut Generator,
        Command { operation, x, y }: Command,
        counts: &mut CardCounts,
    ) -> Result<Result<Answer, u32>, String> {
        // The output held something else before each call, so that an unwritten answer is seen.
        self.out.fill(generator.next_u32() as u8);
        let (record, cards, out) = (self.record.engine(), self.cards.engine(), self.out.engine());
        let code = (self.calls.cards.step)(record, cards, [operation, x, y], out);
        let before = self.typed.clone();
        let expected = step_typed(&mut self.state, &mut self.typed, operation, x, y);
        if let Ok(answer) = &expected {
            self.write_expected();
            put_words(&mut self.out.expected()[..ANSWER_BYTES], &answer.words());
        }
        self.compare(code, expected.err().unwrap_or(NO_REFUSAL))?;
        counts.stepped(&expected, &before, &self.typed);
        Ok(expected)
    }

    /// One offer of both, compared. Whether it was accepted, or refused.
    pub fn offer(
        &mut self,
        offered: [u32; 3],
        counts: &mut CardCounts,
    ) -> Result<Result<(), u32>, String> {
        let code = (self.calls.cards.offer)(self.record.engine(), self.cards.engine(), offered);
        let before = self.typed.clone();
        let [machine, revision, price] = offered;
        let expected = self.typed.offer(machine, revision, price);
        if expected.is_ok() {
            self.write_expected();
        }
        self.compare(code, expected.err().unwrap_or(NO_REFUSAL))?;
        counts.offered(code, offered, &before);
        Ok(expected)
    }

    /// One route of both, compared, and asked one by one on a copy. The cards are not lent to it.
    /// The number returned.
    pub fn route(&mut self, route: &mut Route, counts: &mut RouteCounts) -> Result<u32, String> {
        let before = self.record.look()[..RECORD_BYTES].to_vec();
        let code = route.call(self.calls, &mut self.record)?;
        counts.called(Source::Cards, code, route, self.record.look());
        self.cards.difference("cards").map_or(Ok(()), Err)?;
        if code == NO_REFUSAL {
            let after = &self.record.look()[..RECORD_BYTES];
            counts.asked += route.one_by_one(self.calls, &before, after)?;
            self.state = state_of(after)?;
        }
        Ok(code)
    }

    /// Where no message waits: the record beside the ledger.
    pub fn at_rest<'a>(
        &'a mut self,
        claims: &'a Claims,
        reached: &'a mut Reached,
    ) -> Option<Rest<'a>> {
        let (calls, record) = (self.calls, &mut self.record);
        self.state.messages.is_empty().then_some(Rest { calls, record, claims, reached })
    }

    fn write_expected(&mut self) {
        let mut words = [0; RECORD_WORDS];
        self.state.write(&mut words);
        put_words(&mut self.record.expected()[..RECORD_BYTES], &words);
        let mut words = [0; CARD_SLICE_WORDS];
        self.typed.write(&mut words);
        put_words(&mut self.cards.expected()[..CARDS_BYTES], &words);
    }

    fn compare(&self, code: u32, should: u32) -> Result<(), String> {
        let lent = [("record", &self.record), ("cards", &self.cards), ("output", &self.out)];
        compare(code, should, &lent)
    }

    /// The engine's step without cards, on a copy of the record.
    pub fn alone(&self, Command { operation, x, y }: Command) -> Alone {
        let mut record = self.record.look()[..RECORD_BYTES].to_vec();
        let mut out = [0; ANSWER_BYTES];
        let code = (self.calls.step)(&mut record, operation, x, y, &mut out);
        Alone { code, out, record }
    }

    /// Whether the step with cards came to the same.
    pub fn same_as(&self, alone: &Alone, outcome: &Result<Answer, u32>) -> Result<(), String> {
        let without = match alone.code {
            NO_REFUSAL => Ok(answer_of(&alone.out)),
            code => Err(code),
        };
        if *outcome != without {
            return Err(format!("with cards {outcome:?}, without {without:?}"));
        }
        match alone.record == self.record.look()[..RECORD_BYTES] {
            true => Ok(()),
            false => Err("the record differs from the one that a step without cards makes".into()),
        }
    }

    /// Whether the engine delivers on this link, tried on copies of both.
    pub fn delivers(&self, from: u32, to: u32) -> Result<(), String> {
        let mut record = self.record.look()[..RECORD_BYTES].to_vec();
        let mut cards = self.cards.look()[..CARDS_BYTES].to_vec();
        let mut out = [0; ANSWER_BYTES];
        match (self.calls.cards.step)(&mut record, &mut cards, [DELIVER, from, to], &mut out) {
            NO_REFUSAL => Ok(()),
            code => Err(format!("the message from {from} to {to} cannot be delivered: {code}")),
        }
    }

    /// The words of the slice, as engine and model have them.
    pub fn slice(&self) -> Vec<u32> {
        words_of(&self.cards.look()[..CARDS_BYTES])
    }
}
