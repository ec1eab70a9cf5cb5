//! Routes on records with one word put wrong, and on records of random words.

use ring_model::bytes::NO_REFUSAL;
use ring_model::generator::Generator;
use ring_model::record::{State, RECORD_WORDS};

use super::counts::Source;
use super::lists::some_route;
use crate::calls::{put_word, word_at, Calls, RECORD_BYTES};
use crate::damaged::{bytes_of, reachable, values};
use crate::lent::Lent;
use crate::reached::Reached;
use crate::states::any_state;

/// Words that are put wrong in a batch, and what each is set to.
const WORDS: u32 = 40;
const VALUES: u32 = 4;
/// Records of random words.
const RANDOM: u32 = 6;

/// A sound record, which damage is done to.
struct Bench<'a> {
    calls: Calls,
    state: State,
    sound: Vec<u8>,
    record: Lent,
    reached: &'a mut Reached,
}

/// Damage to one record.
pub fn batch(
    generator: &mut Generator,
    calls: Calls,
    _number: u64,
    reached: &mut Reached,
) -> Result<(), String> {
    let state = if generator.chance(40) { reachable(generator) } else { any_state(generator) };
    let sound = bytes_of(&state);
    let over = generator.below(9) as usize;
    let record = Lent::holding(generator, &sound, over);
    let mut bench = Bench { calls, state, sound, record, reached };
    for _ in 0..WORDS {
        bench.word(generator)?;
    }
    (0..RANDOM).try_for_each(|_| bench.random_words(generator))
}

impl Bench<'_> {
    /// One word set to some values, and put back.
    fn word(&mut self, generator: &mut Generator) -> Result<(), String> {
        let (n, m) = (self.state.n(), self.state.messages.len() as u32);
        let place = match generator.below(6) {
            0 => generator.below(4),
            1 | 2 => 4 + generator.below(7 * n),
            3 | 4 => 452 + generator.below(6 * m),
            _ => generator.below(RECORD_WORDS as u32),
        } as usize;
        let all = values(generator, &self.state, word_at(&self.sound, place));
        for _ in 0..VALUES {
            let value = generator.pick(&all).copied().unwrap_or_default();
            put_word(self.record.engine(), place, value);
            put_word(self.record.expected(), place, value);
            let called = self.route(generator);
            called.map_err(|what| self.tell(&format!("word {place} set to {value}: {what}")))?;
            self.record.put(&self.sound);
        }
        Ok(())
    }

    /// A record of random words behind a header that reads, or altogether random.
    fn random_words(&mut self, generator: &mut Generator) -> Result<(), String> {
        let limit = [2, 5, 256, u32::MAX][generator.below(4) as usize];
        let first = [0, 4][generator.below(2) as usize];
        let mut bytes = self.sound.clone();
        for place in first..RECORD_WORDS {
            put_word(&mut bytes, place, generator.below(limit));
        }
        self.record.put(&bytes);
        let called = self.route(generator);
        called
            .map_err(|what| format!("random words below {limit} from word {first} on: {what}"))?;
        self.record.put(&self.sound);
        Ok(())
    }

    /// A route on the record as it is; if it is not refused, one by one as well.
    fn route(&mut self, generator: &mut Generator) -> Result<(), String> {
        let before = self.record.look()[..RECORD_BYTES].to_vec();
        let mut route = some_route(generator, &self.state);
        let code = route.call(self.calls, &mut self.record)?;
        self.reached.routes.called(Source::Damaged, code, &route, self.record.look());
        if code == NO_REFUSAL {
            let after = &self.record.look()[..RECORD_BYTES];
            self.reached.routes.asked += route.one_by_one(self.calls, &before, after)?;
        }
        Ok(())
    }

    fn tell(&self, what: &str) -> String {
        format!("{what}\n  in {:?}", self.state)
    }
}
