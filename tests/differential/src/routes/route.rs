//! One route, engine and model side by side: the list and the places that are lent to it.

use ring_model::bytes::{ring_route, ANSWER_BYTES, NO_REFUSAL, OUTCOME_BYTES};
use ring_model::command::ASK;
use ring_model::generator::Generator;
use ring_model::routes::{outcome_words, Outcome, OUTCOME_WORDS};

use crate::calls::{answer_of, put_words, word_at, words_of, Calls};
use crate::lent::{compare, Lent};

/// A list of numbers for one hub, and memory for the outcomes.
pub struct Route {
    /// The hub that is asked.
    pub hub: u32,
    numbers: Lent,
    outcomes: Lent,
}

impl Route {
    /// These numbers, so many bytes left over behind them, and so many for outcomes.
    pub fn new(
        generator: &mut Generator,
        hub: u32,
        numbers: &[u32],
        [over, room]: [usize; 2],
    ) -> Route {
        let mut bytes = vec![0; 4 * numbers.len()];
        put_words(&mut bytes, numbers);
        let numbers = Lent::holding(generator, &bytes, over);
        Route { hub, numbers, outcomes: Lent::new(generator, room) }
    }

    /// The numbers of the list.
    pub fn numbers(&self) -> Vec<u32> {
        words_of(self.numbers.look())
    }

    /// Bytes behind the last number.
    pub fn over(&self) -> usize {
        self.numbers.look().len() % 4
    }

    /// Bytes for outcomes.
    pub fn room(&self) -> usize {
        self.outcomes.look().len()
    }

    /// The call of both on a record, compared; the number returned.
    pub fn call(&mut self, calls: Calls, record: &mut Lent) -> Result<u32, String> {
        let (numbers, outcomes) = (self.numbers.engine(), self.outcomes.engine());
        let code = (calls.route)(record.engine(), self.hub, numbers, outcomes);
        let (numbers, outcomes) = (self.numbers.look(), self.outcomes.expected());
        let should = ring_route(record.expected(), self.hub, numbers, outcomes);
        let lent = [("record", &*record), ("numbers", &self.numbers), ("outcomes", &self.outcomes)];
        compare(code, should, &lent).map_err(|what| self.tell(&what))?;
        Ok(code)
    }

    /// The same list asked by the engine's steps on a copy of the record as it was before: outcomes
    /// and record must be those of the route, which was not refused. How many were asked.
    pub fn one_by_one(&self, calls: Calls, before: &[u8], after: &[u8]) -> Result<u64, String> {
        let mut copy = before.to_vec();
        for (place, number) in self.numbers().into_iter().enumerate() {
            let mut out = [0; ANSWER_BYTES];
            let outcome = match (calls.step)(&mut copy, ASK, self.hub, number, &mut out) {
                NO_REFUSAL => Ok(answer_of(&out)),
                code => Err(code),
            };
            if outcome_words(&outcome) != self.place(place) {
                let came = self.place(place);
                let what = format!("number {place} is {outcome:?} alone, in the route {came:?}");
                return Err(self.tell(&what));
            }
        }
        match copy == after {
            true => Ok(self.numbers().len() as u64),
            false => {
                Err(self.tell("the record differs from the one that the asks make one by one"))
            }
        }
    }

    /// The words of an outcome, as engine and model have them.
    fn place(&self, place: usize) -> [u32; OUTCOME_WORDS] {
        let bytes = &self.outcomes.look()[OUTCOME_BYTES * place..][..OUTCOME_BYTES];
        std::array::from_fn(|word| word_at(bytes, word))
    }

    /// Each number with its outcome, where the route was not refused.
    pub fn asked(&self) -> Vec<(u32, Outcome)> {
        let outcome = |place: usize| match self.place(place)[0] {
            NO_REFUSAL => Ok(answer_of(&self.outcomes.look()[OUTCOME_BYTES * place + 4..])),
            number => Err(number),
        };
        self.numbers().into_iter().enumerate().map(|(i, number)| (number, outcome(i))).collect()
    }

    fn tell(&self, what: &str) -> String {
        let (hub, over, room) = (self.hub, self.over(), self.room());
        let lent = format!("{over} bytes left over, {room} for outcomes");
        format!("route at {hub} of {:?}, {lent}: {what}", self.numbers())
    }
}
