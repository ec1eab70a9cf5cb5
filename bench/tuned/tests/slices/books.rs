//! Card slices from anywhere, and words of them that are damaged.

use std::collections::BTreeSet;

use ring_model::generator::Generator;
use ring_model::ledger::Membership;
use ring_model::record::{Message, State, INSIDE};
use ring_model::{Command, RECORD_WORDS};

use super::pair::{Pair, BOOK_WORDS};
use crate::common::records::any_state;

const LEAVEPOINT: u32 = 11;

/// The state's record beside any slice that is well formed there: some
/// members, one at least, and cards all over the circle, beside identifiers and
/// close to each other.
pub fn any_book(generator: &mut Generator, state: &State) -> Pair {
    let names: Vec<u32> = state.rows.iter().map(|row| row.identifier).collect();
    let n = state.n();
    let part = [0, 30, 80, 100][generator.below(4) as usize];
    let mut members: Vec<u32> = (0..n).filter(|_| generator.chance(part)).collect();
    if members.is_empty() {
        members.push(generator.below(n));
    }
    let ledger = Membership::of(&names, &members);
    let count = [0, 1, 3, 40, 511, 512][generator.below(6) as usize];
    let mut pair = Pair {
        words: vec![0; RECORD_WORDS],
        book: vec![0; BOOK_WORDS],
    };
    state.write(&mut pair.words);
    pair.book[0] = count;
    members
        .iter()
        .for_each(|&hub| pair.book[1 + hub as usize] = 1);
    for (place, machine) in machines(generator, &names, count).into_iter().enumerate() {
        let hub = ledger.owner(machine).expect("there is a member");
        let card = [machine, generator.below(4), generator.below(3), hub];
        pair.book[65 + 4 * place..][..4].copy_from_slice(&card);
    }
    pair
}

/// So many different numbers, of one kind or mixed.
fn machines(generator: &mut Generator, names: &[u32], count: u32) -> Vec<u32> {
    let style = generator.below(5);
    let start = generator.next_u32();
    let mut chosen = BTreeSet::new();
    let mut list = Vec::new();
    while list.len() < count as usize {
        let place = list.len() as u32;
        let name = *generator.pick(names).expect("there is a hub");
        let machine = match style {
            0 => generator.next_u32(),
            1 => start.wrapping_add(place),
            2 => name.wrapping_add(generator.below(2048)).wrapping_sub(1024),
            // Many of these have the same place in a table.
            3 => start.wrapping_add(generator.below(4096) << 20),
            _ => crowded(generator.below(512), start),
        };
        if chosen.insert(machine) {
            list.push(machine);
        }
    }
    list
}

/// Numbers whose products by 2654435769 differ in the lowest nine bits alone:
/// all have the same place in a table where higher bits say which.
fn crowded(place: u32, start: u32) -> u32 {
    // What undoes the product, modulo 2^32.
    const BACK: u32 = 340_573_321;
    (start & !0x1FF | place).wrapping_mul(BACK)
}

/// A word of the slice; values at the edges more often.
pub fn damage(generator: &mut Generator, pair: &mut Pair) {
    let (n, count) = (pair.words[1], pair.book[0].min(512));
    let place = match generator.below(6) {
        0 => 0,
        1 => 1 + generator.below(64),
        2 => generator.below(BOOK_WORDS as u32),
        3 => 65 + 4 * count.min(511) + generator.below(4),
        4 => 65 + 4 * generator.below(count),
        _ => 65 + 4 * generator.below(count) + 3,
    } as usize;
    let other = pair.card(generator.below(count) as usize, 0);
    pair.book[place] = match generator.below(8) {
        0 => generator.next_u32(),
        1 => n.wrapping_sub(generator.below(2)),
        2 => other,
        3 => pair.book[place] ^ 1 << generator.below(32),
        4 => pair.book[place]
            .wrapping_add(generator.below(3))
            .wrapping_sub(1),
        5 => 511 + generator.below(3),
        _ => generator.below(65),
    };
}

/// A record in which a LEAVEPOINT waits for a hub that takes it, and its link.
pub fn leavepoint(generator: &mut Generator) -> (State, Command) {
    let mut state = any_state(generator);
    let n = state.n();
    let (from, to) = (generator.below(n), generator.below(n));
    let row = &mut state.rows[to as usize];
    (row.state, row.lock) = (INSIDE, true);
    (row.pred, row.succ) = (from, from);
    state.messages = vec![Message {
        kind: LEAVEPOINT,
        from,
        to,
        a: generator.below(n),
        b: 0,
        hops: 0,
    }];
    (state, Command::new(3, from, to))
}
