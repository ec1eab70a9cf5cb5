//! Random commands, chosen so that most of them are accepted.

use ring_model::command::{ASK, DELIVER, JOIN, LEAVE};
use ring_model::generator::Generator;
use ring_model::record::{State, OUTSIDE};
use ring_model::Command;

/// How often each kind of command is tried, in percent; deliveries are the
/// rest.
#[derive(Clone, Copy, Debug)]
pub struct Mix {
    pub ask: u32,
    pub join: u32,
    pub leave: u32,
    pub anything: u32,
}

/// Calm rings come to rest.
pub const CALM: Mix = Mix {
    ask: 6,
    join: 5,
    leave: 4,
    anything: 5,
};
/// Busy rings never do.
pub const BUSY: Mix = Mix {
    ask: 20,
    join: 10,
    leave: 10,
    anything: 5,
};
/// Swapping rings mostly join and leave.
pub const SWAPPING: Mix = Mix {
    ask: 2,
    join: 22,
    leave: 18,
    anything: 3,
};
/// Flooded rings fill up with messages.
pub const FLOODED: Mix = Mix {
    ask: 70,
    join: 8,
    leave: 4,
    anything: 4,
};

/// Identifiers of a ring: spread out, crowded around 0, or in a row.
pub fn identifiers(generator: &mut Generator, n: usize) -> Vec<u32> {
    let style = generator.below(3);
    let start = generator.next_u32();
    let mut chosen: Vec<u32> = Vec::new();
    while chosen.len() < n {
        let candidate = match style {
            0 => generator.next_u32(),
            1 => generator.below(150).wrapping_sub(75),
            _ => start.wrapping_add(chosen.len() as u32),
        };
        if !chosen.contains(&candidate) {
            chosen.push(candidate);
        }
    }
    chosen
}

/// The next command on a ring in this state.
pub fn command(generator: &mut Generator, mix: Mix, state: &State) -> Command {
    let roll = generator.below(100);
    let asks = mix.ask;
    let joins = asks + mix.join;
    let leaves = joins + mix.leave;
    let others = leaves + mix.anything;
    if roll < asks {
        let node = some_node(generator, state, |s| s != OUTSIDE);
        return Command::new(ASK, node, some_key(generator, state));
    }
    if roll < joins {
        let node = some_node(generator, state, |s| s == OUTSIDE);
        let contact = some_node(generator, state, |s| s >= 2);
        return Command::new(JOIN, node, contact);
    }
    if roll < leaves {
        let node = some_node(generator, state, |s| s >= 2);
        return Command::new(LEAVE, node, generator.next_u32());
    }
    if roll < others {
        return anything(generator, state);
    }
    delivery(generator, state)
}

/// A waiting message's link, or any link of an empty ring.
pub fn delivery(generator: &mut Generator, state: &State) -> Command {
    match generator.pick(&state.messages) {
        Some(message) => Command::new(DELIVER, message.from, message.to),
        None => Command::new(DELIVER, 0, generator.below(state.n())),
    }
}

/// A node in a state that fits, or any node where none fits.
fn some_node(generator: &mut Generator, state: &State, fits: fn(u32) -> bool) -> u32 {
    let nodes: Vec<u32> = (0..state.n())
        .filter(|&i| fits(state.row(i).state))
        .collect();
    match generator.pick(&nodes) {
        Some(&node) => node,
        None => generator.below(state.n()),
    }
}

/// Mostly a key beside an identifier, where ranges meet.
fn some_key(generator: &mut Generator, state: &State) -> u32 {
    if generator.chance(25) {
        return generator.next_u32();
    }
    let node = generator.below(state.n());
    let beside = generator.below(3).wrapping_sub(1);
    state.row(node).identifier.wrapping_add(beside)
}

/// Three numbers with no thought for what they mean.
fn anything(generator: &mut Generator, state: &State) -> Command {
    let operation = generator.below(6);
    let mut number = || match generator.below(8) {
        0 => generator.next_u32(),
        _ => generator.below(state.n() + 2),
    };
    Command::new(operation, number(), number())
}
