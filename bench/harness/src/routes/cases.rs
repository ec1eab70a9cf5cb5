//! The routes that are measured: 64 numbers at one hub of n, no message
//! waiting.

use ring_model::generator::Generator;

use crate::records::{identifier, record};

/// Numbers of a route.
pub const QUESTIONS: usize = 64;
/// How many lists there are where they differ.
const MANY: usize = 64;

/// What becomes of the questions.
#[derive(Clone, Copy, Debug, PartialEq, Eq)]
pub enum Kind {
    Answered,
    Sent,
    Either,
}

impl Kind {
    /// Its name in the table.
    pub fn name(self) -> &'static str {
        match self {
            Kind::Answered => "all answered at once",
            Kind::Sent => "all sent on",
            Kind::Either => "either, in any order",
        }
    }

    /// Can so many of a list be found at once?
    pub fn answers(self, found: usize) -> bool {
        match self {
            Kind::Answered => found == QUESTIONS,
            Kind::Sent => found == 0,
            Kind::Either => (1..QUESTIONS).contains(&found),
        }
    }
}

/// A route on a record; where there are several lists of numbers, they take
/// turns, so that no branch on the numbers can be foretold.
pub struct Case {
    pub kind: Kind,
    pub n: u32,
    pub hub: u32,
    pub lists: Vec<Vec<u8>>,
    pub record: Vec<u8>,
}

impl Case {
    fn new(kind: Kind, n: u32) -> Case {
        let hub = n / 2;
        let mut generator = Generator::new(u64::from(n));
        let mut list = || -> Vec<u8> {
            let owned = |_| match kind {
                Kind::Answered => true,
                Kind::Sent => false,
                Kind::Either => generator.chance(50),
            };
            let owned: Vec<bool> = (0..QUESTIONS).map(owned).collect();
            let numbers = (0..).zip(owned).map(|(i, own)| number(n, hub, i, own));
            numbers.flat_map(u32::to_le_bytes).collect()
        };
        let count = if kind == Kind::Either { MANY } else { 1 };
        Case {
            kind,
            n,
            hub,
            lists: (0..count).map(|_| list()).collect(),
            record: record(n, 0),
        }
    }

    /// For a message.
    pub fn place(&self) -> String {
        format!("a route, {}, at n = {}", self.kind.name(), self.n)
    }
}

/// A number that the hub holds itself, or one of each other hub in turn.
fn number(n: u32, hub: u32, i: u32, own: bool) -> u32 {
    let other = (hub + 1 + i % (n - 1)) % n;
    identifier(n, if own { hub } else { other }) - i
}

/// All of them, in the order of the table.
pub fn all() -> Vec<Case> {
    let kinds = [Kind::Answered, Kind::Sent, Kind::Either];
    let at = |n| kinds.map(|kind| Case::new(kind, n));
    [64, 16].into_iter().flat_map(at).collect()
}
