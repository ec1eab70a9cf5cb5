//! The records that are measured: n hubs inside, m messages waiting.

use ring_model::generator::Generator;
use ring_model::record::{Message, State};
use ring_model::{fresh, step, RECORD_WORDS};

const ASK: u32 = 0;
const JOIN: u32 = 1;
const LEAVE: u32 = 2;
const DELIVER: u32 = 3;

/// Hub i's identifier: the hubs stand clockwise in the order of their numbers,
/// spread over the whole circle. Hub 0 has the smallest, so it founds.
pub fn identifier(n: u32, hub: u32) -> u32 {
    ((u64::from(hub) << 32) / u64::from(n)) as u32 + 1000
}

/// The identifiers of n hubs.
pub fn identifiers(n: u32) -> Vec<u32> {
    (0..n).map(|hub| identifier(n, hub)).collect()
}

/// A record of n hubs that are inside and m messages, as bytes.
///
/// All but those of a lone hub are reached from fresh by calls: the oldest
/// message is a question that its receiver answers, the second one that it
/// sends on, the last one the only one of its link. Between them every fourth
/// hub's wish to leave and questions of all other hubs alternate.
pub fn record(n: u32, m: usize) -> Vec<u8> {
    let mut words = inside(&identifiers(n));
    if n == 1 {
        lone(&mut words, m);
    } else {
        fill(&mut words, n, m);
    }
    counted(&words, n, m)
}

/// A record of n hubs that are inside and stand in any order on the circle, and
/// m questions that wait.
pub fn scattered(n: u32, m: usize) -> Vec<u8> {
    let identifiers = shuffled(n);
    let mut words = inside(&identifiers);
    if n == 1 {
        lone(&mut words, m);
    } else {
        ask_on(&mut words, &identifiers, m);
    }
    counted(&words, n, m)
}

/// m questions for the number behind a hub's own identifier, which it sends on.
fn ask_on(words: &mut [u32], identifiers: &[u32], m: usize) {
    let hubs = identifiers.iter().zip(0..).cycle();
    for (identifier, hub) in hubs.take(m) {
        step(words, ASK, hub, identifier + 1).expect("a call that sends is accepted");
    }
}

/// The same identifiers in any order; hub 0 keeps its own, since it founds.
fn shuffled(n: u32) -> Vec<u32> {
    let mut generator = Generator::new(2026);
    let mut identifiers = identifiers(n);
    for hub in (2..n).rev() {
        identifiers.swap(hub as usize, 1 + generator.below(hub) as usize);
    }
    identifiers
}

/// The bytes of a record, which has n hubs and m messages.
fn counted(words: &[u32], n: u32, m: usize) -> Vec<u8> {
    let state = State::read(words).expect("the record reads");
    assert_eq!((state.n(), state.messages.len()), (n, m));
    bytes(words)
}

fn bytes(words: &[u32]) -> Vec<u8> {
    words.iter().flat_map(|word| word.to_le_bytes()).collect()
}

/// Hubs with these identifiers inside, at rest. Hub 0 founds.
fn inside(identifiers: &[u32]) -> Vec<u32> {
    let mut words = vec![0; RECORD_WORDS];
    fresh(&mut words, identifiers).expect("fresh is accepted");
    for hub in 1..identifiers.len() as u32 {
        step(&mut words, JOIN, hub, 0).expect("join is accepted");
        while let Some(oldest) = oldest(&words) {
            step(&mut words, DELIVER, oldest.from, oldest.to).expect("deliver is accepted");
        }
    }
    words
}

fn oldest(words: &[u32]) -> Option<Message> {
    let state = State::read(words).expect("the record reads");
    state.messages.first().copied()
}

/// A lone hub owns every number, so nothing waits there in any run: these
/// records are well formed, and made by hand.
fn lone(words: &mut [u32], m: usize) {
    let mut state = State::read(words).expect("the record reads");
    state.asked = m as u32;
    for ticket in 0..m as u32 {
        state.send_lookup(0, 0, ticket.wrapping_mul(0x9E37_79B9), ticket, 0);
    }
    state.write(words);
}

/// m calls that each send one message.
fn fill(words: &mut [u32], n: u32, m: usize) {
    let askers: Vec<u32> = (0..n - 1).collect();
    let mut leavers = (4..n.saturating_sub(2)).step_by(4);
    for sent in 0..m {
        let last = sent + 1 == m;
        let hub = if last {
            n - 1
        } else {
            askers[sent % askers.len()]
        };
        let (operation, x, y) = match (sent, leavers.next()) {
            (0, _) => (ASK, 0, identifier(n, 1 % n)),
            (1, _) => (ASK, 1 % n, identifier(n, 0)),
            (_, Some(leaver)) if !last && sent % 2 == 0 => (LEAVE, leaver, 0),
            _ => (ASK, hub, identifier(n, (hub + n / 2) % n)),
        };
        step(words, operation, x, y).expect("a call that sends is accepted");
    }
}

/// The bytes of any well-formed record of n hubs.
#[cfg(test)]
pub fn any_record(generator: &mut Generator, n: u32) -> Vec<u8> {
    let start = generator.next_u32();
    let names = (0..n).map(|hub| start.wrapping_add(hub * 0x0300_0001));
    let mut words = vec![0; RECORD_WORDS];
    ring_model::states::any_state(generator, names.collect()).write(&mut words);
    bytes(&words)
}

#[cfg(test)]
mod tests {
    use super::*;
    use ring_model::record::INSIDE;

    /// How many hubs have the hub of the next number for their succ.
    fn in_order(state: &State) -> u32 {
        let n = state.n();
        (0..n)
            .map(|hub| u32::from(state.row(hub).succ == (hub + 1) % n))
            .sum()
    }

    #[test]
    fn hubs_stand_in_order_or_in_any() {
        for n in [16, 64] {
            let [ordered, any] = [identifiers(n), shuffled(n)].map(|list| {
                let state = State::read(&inside(&list)).expect("the record reads");
                assert!((0..n).all(|hub| state.row(hub).state == INSIDE));
                in_order(&state)
            });
            assert_eq!(ordered, n);
            assert!(any <= n / 8);
        }
    }
}
