//! Card slices with one word put wrong, field by field; machines that stand twice; random words;
//! some bits turned.

mod words;

use ring_model::cards::{Cards, CARD_SLICE_WORDS, CARD_WORDS, FIRST_CARD, FIRST_MEMBER};
use ring_model::generator::Generator;
use ring_model::record::State;
use ring_model::refusal::NOT_WELL_FORMED;

use super::any::{any_cards, any_record};
use super::calls::CARDS_BYTES;
use super::counts::CardCounts;
use super::pair::CardPair;
use crate::calls::{put_word, put_words, Calls, RECORD_BYTES};
use crate::damaged::bytes_of;
use crate::driver::on_any_state;
use crate::reached::Reached;

/// A sound record and slice, which damage is done to.
struct Bench<'a> {
    pair: CardPair,
    state: State,
    typed: Cards,
    record: Vec<u8>,
    cards: Vec<u8>,
    counts: &'a mut CardCounts,
}

/// Damage to one slice.
pub fn batch(
    generator: &mut Generator,
    calls: Calls,
    number: u64,
    reached: &mut Reached,
) -> Result<(), String> {
    let state = any_record(generator);
    let typed = any_cards(generator, &state, None, &mut reached.cards);
    let [behind, further, longer] = [9, 9, 4].map(|most| generator.below(most) as usize);
    let lengths = [RECORD_BYTES + behind, CARDS_BYTES + further, 20 + longer];
    let pair = CardPair::new(generator, calls, lengths);
    let (record, cards) = (bytes_of(&state), card_bytes(&typed));
    let counts = &mut reached.cards;
    let mut bench = Bench { pair, state, typed, record, cards, counts };
    bench.put_back();
    bench.words(generator, number)?;
    bench.twice(generator)?;
    bench.random_words(generator)?;
    bench.random_bits(generator)
}

/// The bytes of a slice.
pub fn card_bytes(typed: &Cards) -> Vec<u8> {
    let mut words = [0; CARD_SLICE_WORDS];
    typed.write(&mut words);
    let mut bytes = vec![0; CARDS_BYTES];
    put_words(&mut bytes, &words);
    bytes
}

impl Bench<'_> {
    fn put_back(&mut self) {
        self.pair.record.put(&self.record);
        self.pair.cards.put(&self.cards);
    }

    /// A step and an offer on the slice as it is; whether it was refused for its words.
    fn both(&mut self, generator: &mut Generator) -> Result<bool, String> {
        self.pair.out.fill(generator.next_u32() as u8);
        let machine = match generator.pick(&self.typed.kept) {
            Some(card) => card.machine,
            None => generator.next_u32(),
        };
        let offered = [machine, generator.next_u32(), generator.below(3)];
        let code = self.pair.offer(offered, self.counts)?;
        let command = on_any_state(generator, &self.state);
        self.pair.step(command, self.counts)?;
        if code != NOT_WELL_FORMED {
            self.put_back();
        }
        Ok(code == NOT_WELL_FORMED)
    }

    fn tell(&self, what: &str) -> String {
        format!("{what}\n  in {:?} and {:?}", self.state, self.typed)
    }

    fn put(&mut self, place: usize, value: u32) {
        put_word(self.pair.cards.engine(), place, value);
        put_word(self.pair.cards.expected(), place, value);
    }

    /// Two cards of one machine, each with its owner.
    fn twice(&mut self, generator: &mut Generator) -> Result<(), String> {
        let count = self.typed.kept.len();
        if count < 4 {
            return Ok(());
        }
        let (last, middle) = (count - 1, count / 2);
        let any = [(); 2].map(|()| generator.below(count as u32) as usize);
        let places = [[0, 1], [0, last], [last, last - 1], [middle, middle + 1], any];
        for (which, [one, other]) in places.into_iter().enumerate() {
            if one == other {
                continue;
            }
            let card = self.typed.kept[one].words();
            for (field, word) in [(0, card[0]), (3, card[3])] {
                self.put(FIRST_CARD + CARD_WORDS * other + field, word);
            }
            let refused = self.both(generator).map_err(|what| self.tell(&what))?;
            if !refused {
                return Err(self.tell(&format!("cards {one} and {other} of one machine pass")));
            }
            self.counts.twice[which] += 1;
            self.put_back();
        }
        Ok(())
    }

    /// Some slices of random words from one of their parts on.
    fn random_words(&mut self, generator: &mut Generator) -> Result<(), String> {
        for _ in 0..4 {
            let limit = [2, 64, 600, u32::MAX][generator.below(4) as usize];
            let first = [0, FIRST_MEMBER, FIRST_CARD][generator.below(3) as usize];
            for place in first..CARD_SLICE_WORDS {
                self.put(place, generator.below(limit));
            }
            self.both(generator).map_err(|what| self.tell(&format!("random words: {what}")))?;
            self.put_back();
        }
        Ok(())
    }

    /// Some bits turned, of the cards or of the record, mostly in words that are used.
    fn random_bits(&mut self, generator: &mut Generator) -> Result<(), String> {
        let used = 4 * (FIRST_CARD + CARD_WORDS * self.typed.kept.len()) as u32;
        for _ in 0..12 {
            for _ in 0..=generator.below(3) {
                let (place, bit) = (generator.below(used) as usize, generator.below(8));
                let lent = match generator.chance(80) {
                    true => &mut self.pair.cards,
                    false => &mut self.pair.record,
                };
                let place = place % lent.look().len();
                lent.engine()[place] ^= 1 << bit;
                lent.expected()[place] ^= 1 << bit;
            }
            self.both(generator).map_err(|what| self.tell(&format!("turned bits: {what}")))?;
            self.put_back();
        }
        Ok(())
    }
}
