//! Do the machines of the cards differ?
//!
//! Each machine is put at a place of a table, over whatever stands there. Then
//! each looks who stands at its place: itself, or one that came later. Those
//! that meet another are compared with it, and if it has another machine, kept
//! for a second round with other places. Few are left then, whichever numbers
//! came, or they are sorted.

use super::book::{CARD_WORDS, MACHINE, MOST_CARDS};
use crate::word::Word;

/// Places of the table.
const PLACES: usize = 2048;
/// A product by this number spreads neighbours; both rounds take bits of it.
const SPREAD: u32 = 2_654_435_769;
/// Where the bits of each round's place begin.
const ROUNDS: [u32; 2] = [21, 10];

/// The test of all cards.
pub(super) fn differ<W: Word>(cards: &[W]) -> bool {
    let mut machines = [0; MOST_CARDS];
    for (place, card) in machines.iter_mut().zip(cards.chunks_exact(CARD_WORDS)) {
        *place = card[MACHINE].get();
    }
    let mut left = cards.len() / CARD_WORDS;
    let mut places = [0; PLACES];
    for shift in ROUNDS {
        match others(&mut machines, left, shift, &mut places) {
            Some(kept) => left = kept,
            None => return false,
        }
    }
    let rest = &mut machines[..left];
    rest.sort_unstable();
    rest.windows(2).all(|pair| pair[0] != pair[1])
}

#[inline]
fn place(machine: u32, shift: u32) -> usize {
    (machine.wrapping_mul(SPREAD) >> shift) as usize % PLACES
}

/// Those of the first machines that have to be looked at again are moved to the
/// front; how many there are. Nothing where two are seen to be equal.
fn others(
    machines: &mut [u32; MOST_CARDS],
    count: usize,
    shift: u32,
    places: &mut [u16; PLACES],
) -> Option<usize> {
    for (card, &machine) in machines[..count].iter().enumerate() {
        places[place(machine, shift)] = card as u16;
    }
    let (mut beaten, mut kept) = ([0; MOST_CARDS], 0);
    for (card, &machine) in machines[..count].iter().enumerate() {
        beaten[kept % MOST_CARDS] = card as u16;
        kept += usize::from(places[place(machine, shift)] != card as u16);
    }
    let mut twice = false;
    for (front, &card) in beaten[..kept].iter().enumerate() {
        let machine = machines[card as usize % MOST_CARDS];
        // The last one of a place stands behind all others of it, so it is not moved yet.
        let last = places[place(machine, shift)];
        twice |= machines[last as usize % MOST_CARDS] == machine;
        machines[front] = machine;
    }
    (!twice).then_some(kept)
}
