//! Identifiers of rings: random ones, and those at which ranges wrap, meet or are as short as can
//! be.

use ring_model::generator::Generator;
use ring_model::record::State;
use ring_model::step::smallest;

/// Some ring size, small ones more often: there the same nodes meet again and again.
pub fn ring_size(generator: &mut Generator) -> usize {
    let most = [3, 6, 12, 64][generator.below(4) as usize];
    match generator.below(16) {
        0 => 1,
        1 => 64,
        _ => 1 + generator.below(most) as usize,
    }
}

/// n different identifiers in random order.
pub fn identifiers(generator: &mut Generator, n: usize) -> Vec<u32> {
    let mut chosen = match generator.below(6) {
        0 => row(generator.next_u32(), 1, n),
        1 => row(0_u32.wrapping_sub(n as u32 / 2), 1, n),
        2 => row(generator.next_u32(), u32::MAX / n as u32, n),
        3 => ends(generator, n),
        _ => scattered(generator, n),
    };
    for i in (1..n).rev() {
        chosen.swap(i, generator.below(i as u32 + 1) as usize);
    }
    chosen
}

/// Brings the smallest identifier to this place.
pub fn put_smallest(names: &mut [u32], place: usize) {
    names.swap(smallest(names) as usize, place);
}

/// Equally spaced identifiers: neighbours for a gap of 1.
fn row(start: u32, gap: u32, n: usize) -> Vec<u32> {
    (0..n as u32).map(|i| start.wrapping_add(i.wrapping_mul(gap))).collect()
}

/// 0 and 4294967295, then random ones and their neighbours.
fn ends(generator: &mut Generator, n: usize) -> Vec<u32> {
    let mut chosen = vec![0, u32::MAX];
    while chosen.len() < n {
        let one = generator.next_u32();
        for candidate in [one, one.wrapping_add(1)] {
            if !chosen.contains(&candidate) {
                chosen.push(candidate);
            }
        }
    }
    chosen.truncate(n);
    chosen
}

fn scattered(generator: &mut Generator, n: usize) -> Vec<u32> {
    let mut chosen = Vec::new();
    while chosen.len() < n {
        let one = generator.next_u32();
        if !chosen.contains(&one) {
            chosen.push(one);
        }
    }
    chosen
}

/// A key to ask for: mostly at an identifier or beside it, where ranges meet.
pub fn some_key(generator: &mut Generator, state: &State) -> u32 {
    match generator.below(8) {
        0 | 1 => generator.next_u32(),
        2 => [0, 1, u32::MAX - 1, u32::MAX][generator.below(4) as usize],
        _ => {
            let beside = generator.below(3).wrapping_sub(1);
            let node = generator.below(state.n());
            state.row(node).identifier.wrapping_add(beside)
        }
    }
}
