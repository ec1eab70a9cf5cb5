//! The calls of a batch so far, so that a difference can be told in a way that shows it again.

use ring_model::Command;

/// So many of the latest calls are told; all of them, if there are no more.
const TOLD: usize = 40;

/// How a batch began, and its calls.
pub struct Trail {
    start: String,
    calls: Vec<Call>,
}

/// A call that was made.
enum Call {
    /// Its name and its three numbers.
    Three(&'static str, [u32; 3]),
    /// A route: its hub, the numbers, and the bytes that were lent for outcomes.
    Route(u32, Vec<u32>, usize),
}

impl Trail {
    /// The trail of a batch that began like this.
    pub fn new(start: String) -> Trail {
        Trail { start, calls: Vec::new() }
    }

    /// Notes a step that is about to be made.
    pub fn push(&mut self, Command { operation, x, y }: Command) {
        self.calls.push(Call::Three("step", [operation, x, y]));
    }

    /// Notes an offer that is about to be made.
    pub fn push_offer(&mut self, offered: [u32; 3]) {
        self.calls.push(Call::Three("offer", offered));
    }

    /// Notes a route that is about to be made.
    pub fn push_route(&mut self, hub: u32, numbers: Vec<u32>, room: usize) {
        self.calls.push(Call::Route(hub, numbers, room));
    }

    /// The report of a difference at the latest call.
    pub fn tell(&self, what: &str) -> String {
        let count = self.calls.len();
        let mut text = format!("call {count} of the batch: {what}\n  began with {}", self.start);
        let first = count.saturating_sub(TOLD);
        if first > 0 {
            text.push_str(&format!("\n  {first} calls, then"));
        }
        for call in &self.calls[first..] {
            let line = match call {
                Call::Three(name, [a, b, c]) => format!("{name} {a} {b} {c}"),
                Call::Route(hub, numbers, room) => {
                    format!("route at {hub}, {room} bytes for outcomes: {numbers:?}")
                }
            };
            text.push_str(&format!("\n  {line}"));
        }
        text
    }
}
