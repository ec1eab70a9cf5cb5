//! Machines for many cards: at the identifiers, where owners change, and numbers that are meant to
//! be bad for whoever looks for equal ones by hashing or sorting.

use std::collections::HashSet;

use ring_model::generator::Generator;

/// How a set of machines was made.
#[derive(Clone, Copy, Debug)]
pub enum Making {
    /// Each at an identifier, or next to one.
    Identifiers,
    /// Equally spaced: equal high bits, equal low bits, multiples, and what a hash that multiplies
    /// makes neighbours of.
    Progression,
    /// Of one value under some hash.
    Hashed,
    /// Random.
    Random,
}

/// Odd numbers by which hashes multiply.
const MULTIPLIERS: [u32; 12] = [
    0x9E37_79B9,
    0x9E37_79B1,
    0x85EB_CA6B,
    0xC2B2_AE35,
    0x27D4_EB2F,
    0x1656_67B1,
    0x0100_0193,
    0x045D_9F3B,
    0x2C1B_3C6D,
    1_664_525,
    69_069,
    31,
];
/// Primes that tables have for sizes.
const PRIMES: [u32; 8] = [509, 521, 769, 1009, 1021, 1031, 2039, 2053];
/// Further hashes than these two lists have.
const OTHERS: usize = 4;
/// Most shifts at which 512 multiples of an odd number differ.
const MOST_SHIFT: u32 = 22;

/// So many different machines for a ring with these identifiers.
pub fn machines(
    generator: &mut Generator,
    identifiers: &[u32],
    count: usize,
) -> (Making, Vec<u32>) {
    let (making, chosen) = match generator.below(8) {
        0 | 1 => (Making::Identifiers, beside(generator, identifiers, count)),
        2..=4 => (Making::Progression, progression(generator, count)),
        5 | 6 => (Making::Hashed, of_one_hash(generator, count)),
        _ => (Making::Random, Vec::new()),
    };
    let mut met: HashSet<u32> = HashSet::new();
    let mut all: Vec<u32> = chosen.into_iter().filter(|&machine| met.insert(machine)).collect();
    while all.len() < count {
        let machine = generator.next_u32();
        if met.insert(machine) {
            all.push(machine);
        }
    }
    reorder(generator, &mut all);
    (making, all)
}

/// As they are, the other way round, or in any order.
fn reorder(generator: &mut Generator, machines: &mut [u32]) {
    match generator.below(4) {
        0 => machines.reverse(),
        1 => machines.sort_unstable(),
        2 => {
            for i in (1..machines.len()).rev() {
                machines.swap(i, generator.below(i as u32 + 1) as usize);
            }
        }
        _ => {}
    }
}

/// The identifiers, both their neighbours, and both ends of the circle.
fn beside(generator: &mut Generator, identifiers: &[u32], count: usize) -> Vec<u32> {
    let mut all = vec![0, u32::MAX, 1 << 31];
    for away in 0..=count as u32 / 2 / identifiers.len() as u32 {
        let around = |&name: &u32| [name.wrapping_add(away), name.wrapping_sub(away)];
        all.extend(identifiers.iter().flat_map(around));
    }
    reorder(generator, &mut all);
    all.truncate(count);
    all
}

/// Equally spaced machines.
fn progression(generator: &mut Generator, count: usize) -> Vec<u32> {
    let constant = generator.pick(&MULTIPLIERS).copied().unwrap_or(1);
    let odd = [1, constant, inverse(constant), generator.next_u32() | 1];
    let shift = if generator.chance(50) { generator.below(MOST_SHIFT + 1) } else { 0 };
    let step = odd[generator.below(4) as usize] << shift;
    let start = if generator.chance(50) { generator.next_u32() } else { 0 };
    (0..count as u32).map(|i| start.wrapping_add(step.wrapping_mul(i))).collect()
}

/// What an odd number is multiplied with to give 1: each round makes twice as many bits right.
fn inverse(odd: u32) -> u32 {
    (0..5).fold(odd, |x, _| x.wrapping_mul(2_u32.wrapping_sub(odd.wrapping_mul(x))))
}

/// Machines to which one hash gives the same value.
fn of_one_hash(generator: &mut Generator, count: usize) -> Vec<u32> {
    let which = generator.below((OTHERS + PRIMES.len() + MULTIPLIERS.len()) as u32) as usize;
    let (start, step) = (generator.next_u32(), generator.next_u32() | 1);
    let value = hash(which, start);
    let walk = (0_u32..).map(|i| start.wrapping_add(step.wrapping_mul(i)));
    walk.filter(|&machine| hash(which, machine) == value).take(count).collect()
}

/// Ten or eleven bits of a machine by this hash.
fn hash(which: usize, machine: u32) -> u32 {
    match which {
        0 => (machine ^ machine >> 16) & 0x7FF,
        1 => mixed(machine) & 0x7FF,
        2 => mixed(machine) >> 21,
        3 => (u64::from(machine).wrapping_mul(0x9E37_79B9_7F4A_7C15) >> 54) as u32,
        _ if which < OTHERS + PRIMES.len() => machine % PRIMES[which - OTHERS],
        _ => machine.wrapping_mul(MULTIPLIERS[which - OTHERS - PRIMES.len()]) >> 21,
    }
}

/// A finaliser that many hashes end with.
fn mixed(machine: u32) -> u32 {
    let x = (machine ^ machine >> 16).wrapping_mul(0x85EB_CA6B);
    let x = (x ^ x >> 13).wrapping_mul(0xC2B2_AE35);
    x ^ x >> 16
}
