//! Records from anywhere, and words of them that are damaged.

use ring_model::generator::Generator;
use ring_model::record::State;
use ring_model::RECORD_WORDS;

use crate::common::records::any_state;

/// A record from anywhere among the well-formed ones.
pub fn any_words(generator: &mut Generator) -> (State, Vec<u32>) {
    let state = any_state(generator);
    let mut words = vec![0; RECORD_WORDS];
    state.write(&mut words);
    (state, words)
}

/// A word of the parts that are in use, or any; values at the edges more often.
/// Where a count is out of range there are no such parts.
pub fn damage(generator: &mut Generator, words: &mut [u32]) {
    let (n, m, asked) = (words[1], words[2], words[3]);
    if !(1..=64).contains(&n) || m > 256 {
        return;
    }
    let place = match generator.below(8) {
        0 => generator.below(4),
        1 => generator.below(RECORD_WORDS as u32),
        2 => 4 + 7 * n + generator.below(7),
        3 => 452 + 6 * m + generator.below(6),
        4 | 5 => 4 + generator.below(7 * n),
        _ => 452 + generator.below(6 * m),
    };
    let place = place.min(RECORD_WORDS as u32 - 1) as usize;
    let other = words[4 + 7 * generator.below(n) as usize];
    words[place] = match generator.below(10) {
        0 => generator.next_u32(),
        1 => n - generator.below(2),
        2 => asked.wrapping_sub(generator.below(2)),
        3 => 255 - generator.below(2),
        4 => 65_535 + generator.below(2),
        5 => other,
        6 => words[place] ^ 1 << generator.below(32),
        _ => generator.below(17),
    };
}
