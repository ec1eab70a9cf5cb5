//! Which command comes next. Commands are drawn so that most are accepted and protocols overlap;
//! the rest are anything at all.

use ring_model::command::{ASK, DELIVER, JOIN, LEAVE};
use ring_model::generator::Generator;
use ring_model::record::{Message, Row, State, INSIDE, OUTSIDE};
use ring_model::Command;

use crate::identifiers::some_key;

/// How often a message is picked again when it is held back.
const TRIES: u32 = 6;
/// One link in so many is starved, in a phase that starves any.
const STARVED: u32 = 3;

/// Of 100 commands, how many are asks, joins, leaves, and anything: calm, busy, a burst of joins, a
/// burst of leaves, swapping, many questions, questions as they are delivered, and nothing but
/// deliveries.
const SHARES: [[u32; 4]; 8] = [
    [6, 5, 4, 4],
    [20, 10, 10, 5],
    [3, 55, 2, 3],
    [3, 2, 40, 3],
    [2, 22, 18, 3],
    [75, 6, 4, 4],
    [48, 2, 2, 4],
    [0, 0, 0, 1],
];

/// A stretch of a run with one mix of commands.
pub struct Phase {
    /// As in `SHARES`; the rest are deliveries.
    shares: [u32; 4],
    /// If not 0, it fixes which links are starved: nothing is delivered over them in this phase.
    salt: u64,
    /// Messages of this kind are not picked for delivery; 0 for none.
    held_kind: u32,
    /// Which message is picked.
    order: Order,
    /// How many calls the phase lasts.
    pub calls: u32,
}

/// Which waiting message a delivery is for.
#[derive(Clone, Copy)]
enum Order {
    Any,
    First,
    Last,
}

impl Phase {
    /// A random phase.
    pub fn new(generator: &mut Generator) -> Phase {
        let shares = SHARES[generator.below(SHARES.len() as u32) as usize];
        Phase {
            shares,
            salt: if generator.chance(40) { generator.next_u64() | 1 } else { 0 },
            held_kind: if generator.chance(30) { 1 + generator.below(14) } else { 0 },
            order: [Order::Any, Order::Any, Order::First, Order::Last][generator.below(4) as usize],
            calls: 40 + generator.below(500),
        }
    }

    /// Starves in this phase the links that another starves: some links then wait for very long.
    pub fn starve_like(&mut self, other: &Phase) {
        self.salt = other.salt;
    }

    /// Joins with time to be finished, so that a large ring comes about.
    pub fn growth(n: usize) -> Phase {
        Phase::plain([1, 5, 0, 1], Order::First, 30 * n as u32)
    }

    /// Questions until no more go in, and then as many as are delivered.
    pub fn flood() -> [Phase; 2] {
        [Phase::plain([96, 1, 1, 1], Order::Any, 600), Phase::plain([48, 3, 3, 3], Order::Any, 300)]
    }

    /// A phase that holds nothing back.
    fn plain(shares: [u32; 4], order: Order, calls: u32) -> Phase {
        Phase { shares, salt: 0, held_kind: 0, order, calls }
    }

    /// The next command on a ring in this state.
    pub fn command(&self, generator: &mut Generator, state: &State) -> Command {
        let mut roll = generator.below(100);
        for (which, &share) in self.shares.iter().enumerate() {
            if roll < share {
                return self.other(generator, state, which);
            }
            roll -= share;
        }
        self.delivery(generator, state)
    }

    /// An ask, a join, a leave or anything. Where no node can do it, mostly a delivery instead, and
    /// now and then what is refused.
    fn other(&self, generator: &mut Generator, state: &State, which: usize) -> Command {
        let useful = match which {
            0 => some_ask(generator, state),
            1 => some_join(generator, state),
            2 => some_leave(generator, state),
            _ => return anything(generator, state),
        };
        match useful {
            Some(command) => command,
            None if generator.chance(80) => self.delivery(generator, state),
            None => {
                Command::new(which as u32, generator.below(state.n()), generator.below(state.n()))
            }
        }
    }

    /// A waiting message that is not held back. Where a few tries find none, the ring must not
    /// stand still: something else.
    fn delivery(&self, generator: &mut Generator, state: &State) -> Command {
        let messages = &state.messages;
        for attempt in 0..TRIES {
            let picked = match self.order {
                Order::First if attempt == 0 => messages.first(),
                Order::Last if attempt == 0 => messages.last(),
                _ => generator.pick(messages),
            };
            match picked {
                Some(message) if !self.holds_back(message) => {
                    return Command::new(DELIVER, message.from, message.to)
                }
                Some(_) => {}
                None => break,
            }
        }
        let useful = match generator.below(4) {
            0 => some_ask(generator, state),
            1 => some_join(generator, state),
            2 => some_leave(generator, state),
            _ => None,
        };
        useful.unwrap_or_else(|| anything(generator, state))
    }

    fn holds_back(&self, message: &Message) -> bool {
        let link = u64::from(message.from) << 6 | u64::from(message.to);
        let starved = self.salt != 0 && Generator::new(self.salt ^ link).below(STARVED) == 0;
        starved || (self.held_kind != 0 && message.kind == self.held_kind)
    }
}

/// A node that fits: the first from a random one on.
fn some_node(generator: &mut Generator, state: &State, fits: impl Fn(&Row) -> bool) -> Option<u32> {
    let n = state.n();
    let start = generator.below(n);
    (start..n).chain(0..start).find(|&node| fits(state.row(node)))
}

/// A node is asked that may be; now and then any.
fn some_ask(generator: &mut Generator, state: &State) -> Option<Command> {
    let any = generator.chance(5);
    let node = some_node(generator, state, |row| any || row.in_ring())?;
    Some(Command::new(ASK, node, some_key(generator, state)))
}

fn some_join(generator: &mut Generator, state: &State) -> Option<Command> {
    let node = some_node(generator, state, |row| row.state == OUTSIDE)?;
    let contact = some_node(generator, state, Row::in_ring)?;
    Some(Command::new(JOIN, node, contact))
}

fn some_leave(generator: &mut Generator, state: &State) -> Option<Command> {
    let node = some_node(generator, state, |row| row.state == INSIDE && !row.lock)?;
    // The last node of a ring may not leave; its y is not read, so it may be anything.
    (state.row(node).succ != node).then(|| Command::new(LEAVE, node, generator.next_u32()))
}

/// Three numbers with little thought for what they mean.
pub fn anything(generator: &mut Generator, state: &State) -> Command {
    let operation = match generator.below(12) {
        0 => [4, 5, 255, 256, 1 << 31, u32::MAX][generator.below(6) as usize],
        _ => generator.below(4),
    };
    let x = any_node(generator, state.n());
    let y = match operation {
        ASK => some_key(generator, state),
        _ => any_node(generator, state.n()),
    };
    Command::new(operation, x, y)
}

/// Mostly one of n nodes, now and then a number that is none.
pub fn any_node(generator: &mut Generator, n: u32) -> u32 {
    match generator.below(10) {
        0 => [n, n + 1, 63, 64, 255, 256, 1 << 31, u32::MAX][generator.below(8) as usize],
        _ => generator.below(n),
    }
}

/// A command for a record that no run reaches: deliveries of what waits, and some of everything
/// else.
pub fn on_any_state(generator: &mut Generator, state: &State) -> Command {
    let useful = match generator.below(10) {
        0 => Some(Command::new(ASK, generator.below(state.n()), some_key(generator, state))),
        1 => some_join(generator, state),
        2 => some_leave(generator, state),
        3 => None,
        _ => generator
            .pick(&state.messages)
            .map(|message| Command::new(DELIVER, message.from, message.to)),
    };
    useful.unwrap_or_else(|| anything(generator, state))
}
