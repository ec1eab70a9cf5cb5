//! Random states that make well-formed records, most of which no run reaches.

use crate::generator::Generator;
use crate::kinds::{JOIN, JOINPOINT, LEAVEPOINT, LOOKUP, NEWSUCCACK};
use crate::record::{Message, Row, State, INSIDE, JOINING, NONE, OUTSIDE};

/// Any state of nodes with these identifiers: what document 01 leaves open is
/// drawn, the rest is as it must be.
pub fn any_state(generator: &mut Generator, names: Vec<u32>) -> State {
    let n = names.len() as u32;
    let asked = match generator.below(4) {
        0 => generator.below(3),
        1 => u32::MAX - generator.below(3),
        _ => generator.next_u32(),
    };
    let m = match generator.below(8) {
        0 => 0,
        1 => 256 - generator.below(3),
        2 => generator.below(257),
        _ => 1 + generator.below(12),
    };
    let rows: Vec<Row> = names
        .into_iter()
        .map(|name| any_row(generator, n, name))
        .collect();
    let messages = (0..m)
        .map(|_| any_message(generator, &rows, asked))
        .collect();
    State {
        asked,
        rows,
        messages,
    }
}

fn any_row(generator: &mut Generator, n: u32, identifier: u32) -> Row {
    // Inside is drawn more often, since it has the locks and flags to choose from.
    let state = [0, 1, 2, 2, 2, 3, 4][generator.below(7) as usize];
    let lock = match state {
        OUTSIDE => false,
        INSIDE => generator.chance(60),
        _ => true,
    };
    let flag = state == INSIDE && lock && generator.chance(50);
    let mut pointer = |some: bool| if some { generator.below(n) } else { NONE };
    let in_ring = state >= INSIDE;
    Row {
        identifier,
        state,
        lock,
        flag,
        pred: pointer(in_ring),
        succ: pointer(in_ring),
        oldpred: pointer(flag),
    }
}

fn any_message(generator: &mut Generator, rows: &[Row], asked: u32) -> Message {
    let n = rows.len() as u32;
    // Before the first ask there can be no LOOKUP.
    let kind = match 1 + generator.below(14) {
        LOOKUP if asked == 0 => JOIN,
        kind => kind,
    };
    let (from, to) = (generator.below(n), generator.below(n));
    let mut message = Message {
        kind,
        from,
        to,
        a: 0,
        b: 0,
        hops: 0,
    };
    match kind {
        LOOKUP => {
            let beside = generator.below(3).wrapping_sub(1);
            message.a = rows[generator.below(n) as usize]
                .identifier
                .wrapping_add(beside);
            message.b = generator.below(asked);
            message.hops =
                [0, 1, 65534, 65535, generator.below(65536)][generator.below(5) as usize];
        }
        JOIN => message.a = joiner(generator, rows),
        JOINPOINT | NEWSUCCACK | LEAVEPOINT => message.a = generator.below(n),
        _ => {}
    }
    message
}

/// Mostly a node that is joining, since a JOIN of any other is refused.
fn joiner(generator: &mut Generator, rows: &[Row]) -> u32 {
    let n = rows.len() as u32;
    for _ in 0..4 {
        let node = generator.below(n);
        if rows[node as usize].state == JOINING {
            return node;
        }
    }
    generator.below(n)
}
