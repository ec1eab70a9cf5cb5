//! Trouble in a script of `inspect`: words too few, words put wrong, counts at the limit, odd
//! lines; and repairs.

use ring_model::generator::Generator;
use ring_model::inspect::KEPT_WORDS;

use crate::damaged::values;
use crate::inspections::Script;
use crate::odd_lines::odd_line;

/// More differences are not written word by word.
const FEW: usize = 12;

/// Numbers of words to lend, around the record's.
const LENDS: [u32; 6] = [0, 1, 1987, 1988, 1989, 1990];

impl Script {
    /// One of these, and mostly its repair.
    pub fn trouble(&mut self, generator: &mut Generator) {
        let (words, lent) = (self.inspect.words().to_vec(), self.inspect.lent().len());
        match generator.below(6) {
            0 => self.lend(generator),
            1 | 2 => self.damage(generator),
            3 => {
                self.bend(generator);
                return;
            }
            4 => {
                let place = generator.below(9);
                self.count(generator, place);
            }
            _ => self.push_bytes(&odd_line(generator)),
        }
        if generator.chance(97) {
            self.repair(&words, lent);
        }
    }

    /// Too few words, or some more than the record's.
    fn lend(&mut self, generator: &mut Generator) {
        let words = match generator.below(4) {
            0 => generator.below(KEPT_WORDS as u32 + 1),
            _ => LENDS[generator.below(LENDS.len() as u32) as usize],
        };
        self.push(&format!("lend {words}"));
        self.some_lines(generator);
        // A word is written whether or not it is lent, which shows once it is lent again.
        if generator.chance(30) {
            self.damage(generator);
            self.push("lend 1990");
            self.some_lines(generator);
        }
    }

    /// One word put wrong, mostly one that is in use.
    fn damage(&mut self, generator: &mut Generator) {
        let (n, m) = (self.state.n(), self.state.messages.len() as u32);
        let place = match generator.below(8) {
            0 => generator.below(4),
            1..=3 => 4 + generator.below(7 * n),
            4 | 5 => 452 + generator.below(6 * m),
            _ => generator.below(KEPT_WORDS as u32),
        };
        let word = self.inspect.words()[place as usize];
        let values = values(generator, &self.state, word);
        let value = generator.pick(&values).copied().unwrap_or_default();
        self.push(&format!("word {place} {value}"));
        self.some_lines(generator);
    }

    /// Puts back what trouble changed, unless it has become another ring.
    fn repair(&mut self, words: &[u32], lent: usize) {
        let changed: Vec<usize> =
            (0..KEPT_WORDS).filter(|&place| self.inspect.words()[place] != words[place]).collect();
        for &place in changed.iter().filter(|_| changed.len() <= FEW) {
            self.push(&format!("word {place} {}", words[place]));
        }
        if self.inspect.lent().len() != lent {
            self.push(&format!("lend {lent}"));
        }
    }

    /// A word that leaves the record well formed, and takes it where no run comes: few tickets
    /// left, or a hub with another neighbour.
    fn bend(&mut self, generator: &mut Generator) {
        let n = self.state.n();
        let hub = generator.below(n);
        match generator.below(3) {
            0 => self.push(&format!("word 3 {}", u32::MAX - generator.below(3))),
            _ if self.state.row(hub).in_ring() => {
                let pointer = 4 + 7 * hub + 4 + generator.below(2);
                self.push(&format!("word {pointer} {}", generator.below(n)));
            }
            _ => {}
        }
        self.some_lines(generator);
    }

    /// A count at the limit, next to it, or anywhere.
    pub fn count(&mut self, generator: &mut Generator, place: u32) {
        let value = match generator.below(6) {
            0 | 1 => u64::MAX,
            2 | 3 => u64::MAX - u64::from(generator.below(3)),
            4 => u64::from(generator.below(3)),
            _ => generator.next_u64(),
        };
        self.push(&format!("count {place} {value}"));
    }
}
