//! Lines of `inspect` with numbers at their limits or above, and lines that are one slip away from
//! one that reads.

use ring_model::generator::Generator;
use ring_model::inspect::{KEPT_WORDS, MOST_PLACES};
use ring_model::tally::REFUSED;

use crate::scripts::{hostile, pick, WRONG};

const NUMBER: u64 = u32::MAX as u64;

/// The words, and the limits of their numbers.
const WORDS: [(&str, &[u64]); 8] = [
    ("row", &[NUMBER]),
    ("roll", &[NUMBER, MOST_PLACES as u64]),
    ("owner", &[NUMBER]),
    ("waiting", &[]),
    ("counts", &[]),
    ("lend", &[KEPT_WORDS as u64]),
    ("word", &[KEPT_WORDS as u64 - 1, NUMBER]),
    ("count", &[REFUSED as u64, u64::MAX]),
];

/// Lengths around that of the longest line that reads.
const LENGTHS: [usize; 6] = [512, 513, 514, 515, 516, 600];

/// Such a line.
pub fn odd_line(generator: &mut Generator) -> Vec<u8> {
    let (word, limits) = WORDS[generator.below(WORDS.len() as u32) as usize];
    let mut parts = vec![word.to_string()];
    parts.extend(limits.iter().map(|&limit| some_number(generator, limit)));
    let part = generator.below(parts.len() as u32) as usize;
    match generator.below(24) {
        0 => stretch(generator, &mut parts),
        1 => parts.truncate(parts.len() - 1),
        2 => parts.push(some_number(generator, NUMBER)),
        3 => parts.insert(part, String::new()),
        4 => parts[part].clear(),
        5 => parts[0].make_ascii_uppercase(),
        6 => parts[0] = parts[0][1..].to_string(),
        7 => parts[0].push(pick(generator, b"s1 e") as char),
        8 => return hostile(generator),
        9..=12 => return slip(generator, parts.join(" ").into_bytes()),
        _ => {}
    }
    parts.join(" ").into_bytes()
}

/// A number at its limit, next to it, or far from it; now and then with zeros in front.
fn some_number(generator: &mut Generator, limit: u64) -> String {
    let limit = u128::from(limit);
    let number = match generator.below(20) {
        0 | 1 => limit + 1,
        2 => limit + (1 << 32),
        3 => limit + (1 << 64),
        4 => 10 * limit + u128::from(generator.below(10)),
        5 | 6 => limit,
        7 => limit - 1,
        8 => 0,
        _ => u128::from(generator.next_u64()) % (limit + 1),
    };
    let zeros = if generator.chance(10) { 1 + generator.below(40) as usize } else { 0 };
    format!("{}{number}", "0".repeat(zeros))
}

/// Zeros before the last number, up to a length at which something changes.
fn stretch(generator: &mut Generator, parts: &mut [String]) {
    let length = LENGTHS[generator.below(LENGTHS.len() as u32) as usize];
    let zeros = "0".repeat(length - parts.join(" ").len());
    if let Some(last) = parts.last_mut() {
        last.insert_str(0, &zeros);
    }
}

/// One byte wrong, gone, twice or too many.
fn slip(generator: &mut Generator, mut line: Vec<u8>) -> Vec<u8> {
    let place = generator.below(line.len() as u32) as usize;
    match generator.below(5) {
        0 => line[place] = pick(generator, WRONG),
        1 => line.insert(place, line[place]),
        2 => line.insert(place, pick(generator, WRONG)),
        3 => line.push(pick(generator, b"\r \t\0")),
        _ => {
            line.remove(place);
        }
    }
    line
}
