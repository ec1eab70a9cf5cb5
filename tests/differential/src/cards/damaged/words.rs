//! One word of the cards put wrong at a time.

use ring_model::cards::{CARD_SLICE_WORDS, CARD_WORDS, FIRST_CARD, FIRST_MEMBER};
use ring_model::generator::Generator;

use super::Bench;
use crate::calls::word_at;

/// Words of a window. Each batch has another one, so that many batches put each word wrong.
const WINDOW: usize = 24;
/// The limits that the documents name, and what is next to them.
const LIMITS: [u32; 13] = [0, 1, 2, 63, 64, 255, 256, 511, 512, 513, 1 << 30, 1 << 31, u32::MAX];

impl Bench<'_> {
    /// Each word in turn, and with each value.
    pub fn words(&mut self, generator: &mut Generator, number: u64) -> Result<(), String> {
        for place in self.places(generator, number) {
            let word = word_at(&self.cards, place);
            for value in self.values(generator, place, word) {
                self.put(place, value);
                let put = format!("word {place} of the cards, {word}, is {value}");
                let refused = self.both(generator);
                let refused = refused.map_err(|what| self.tell(&format!("{put}: {what}")))?;
                if value != word {
                    self.counts.damaged(self.field(place), refused);
                }
            }
            self.put(place, word);
        }
        Ok(())
    }

    /// The count, some hubs' words, some cards', some unused ones, and a window.
    fn places(&self, generator: &mut Generator, number: u64) -> Vec<usize> {
        let (n, count) = (self.state.rows.len(), self.typed.kept.len());
        let mut below = |most: usize| generator.below(most as u32) as usize;
        let mut places = vec![0, FIRST_MEMBER, FIRST_MEMBER + n - 1, FIRST_CARD - 1];
        places.push(FIRST_MEMBER + n.min(63));
        places.extend([n, 64].map(|most| FIRST_MEMBER + below(most)));
        let last = count.saturating_sub(1);
        for card in [0, last, below(count)] {
            let first = FIRST_CARD + CARD_WORDS * card;
            places.extend(first..first + CARD_WORDS);
        }
        let unused = FIRST_CARD + CARD_WORDS * count;
        let some = unused + below(CARD_SLICE_WORDS - unused);
        places.extend([unused, some, CARD_SLICE_WORDS - 1]);
        let window = number as usize * WINDOW % CARD_SLICE_WORDS;
        places.extend(window..window + WINDOW);
        places.retain(|&place| place < CARD_SLICE_WORDS);
        places
    }

    /// What a word is set to: limits, what is next to it, and what stands elsewhere.
    fn values(&self, generator: &mut Generator, place: usize, word: u32) -> Vec<u32> {
        let n = self.state.n();
        let mut all = vec![word.wrapping_add(1), word.wrapping_sub(1), generator.next_u32()];
        all.extend(generator.pick(&LIMITS));
        match self.field(place) {
            0..=2 => all.extend(LIMITS),
            3 => {
                let kept = &self.typed.kept;
                let machines = [kept.first(), kept.last(), generator.pick(kept)];
                all.extend(machines.into_iter().flatten().map(|card| card.machine));
            }
            6 => all.extend([n - 1, n, generator.below(n), generator.below(n), 255]),
            7 => all.push(1),
            _ => {}
        }
        all
    }

    /// The count 0, a hub's word 1, a word of no hub 2, a card's words 3 to 6, an unused one 7.
    fn field(&self, place: usize) -> usize {
        let hubs = FIRST_MEMBER + self.state.rows.len();
        let used = FIRST_CARD + CARD_WORDS * self.typed.kept.len();
        match place {
            0 => 0,
            _ if place < hubs => 1,
            _ if place < FIRST_CARD => 2,
            _ if place < used => 3 + (place - FIRST_CARD) % CARD_WORDS,
            _ => 7,
        }
    }
}
