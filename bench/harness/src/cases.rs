//! The calls that are measured at a point (n, m).

use ring_model::generator::Generator;

use crate::contestants::Call;
use crate::records::{identifier, record, scattered};

/// How many calls there are of a kind that is about any number.
const MANY: usize = 1024;

/// What is asked of the contestants.
#[derive(Clone, Copy, PartialEq, Eq)]
pub enum Kind {
    AskAnswered,
    AskSent,
    DeliverFirst,
    DeliverOn,
    DeliverLast,
    Refused,
    DamagedFirst,
    DamagedLast,
    Owner,
    AskAny,
    OwnerOfAny,
    RollCall,
}

/// All of them, in the order of the table.
pub const KINDS: [Kind; 12] = [
    Kind::AskAnswered,
    Kind::AskSent,
    Kind::DeliverFirst,
    Kind::DeliverOn,
    Kind::DeliverLast,
    Kind::Refused,
    Kind::DamagedFirst,
    Kind::DamagedLast,
    Kind::Owner,
    Kind::AskAny,
    Kind::OwnerOfAny,
    Kind::RollCall,
];

impl Kind {
    /// Its name in the table.
    pub fn name(self) -> &'static str {
        match self {
            Kind::AskAnswered => "ask, answered at once",
            Kind::AskSent => "ask, sent on",
            Kind::DeliverFirst => "deliver the oldest, answered",
            Kind::DeliverOn => "deliver an early one, sent on",
            Kind::DeliverLast => "deliver the last, sent on",
            Kind::Refused => "refused (9; alone 8)",
            Kind::DamagedFirst => "refused (2, first row)",
            Kind::DamagedLast => "refused (2, last message)",
            Kind::Owner => "owner",
            Kind::AskAny => "ask, any number, hubs in any order",
            Kind::OwnerOfAny => "owner, any number, hubs in any order",
            Kind::RollCall => "roll call, any hub, hubs in any order",
        }
    }
}

/// A call on a record, or several that take turns, and the number that they return.
pub struct Case {
    pub kind: Kind,
    pub n: u32,
    pub m: usize,
    pub calls: Vec<Call>,
    pub record: Vec<u8>,
    pub returns: u32,
}

/// The case of this kind at a point, if the point has one.
pub fn case(kind: Kind, n: u32, m: usize) -> Option<Case> {
    match kind {
        Kind::AskAny | Kind::OwnerOfAny if n < 3 || m > 0 => return None,
        Kind::RollCall if m > 0 && m < 256 => return None,
        Kind::AskAny | Kind::OwnerOfAny | Kind::RollCall => return Some(any(kind, n, m)),
        _ => {}
    }
    let (call, returns) = call(kind, n, m)?;
    let mut record = record(n, m);
    match kind {
        Kind::DamagedFirst => damage_first(&mut record),
        Kind::DamagedLast => damage_last(&mut record, n, m),
        _ => {}
    }
    Some(Case {
        kind,
        n,
        m,
        calls: vec![call],
        record,
        returns,
    })
}

/// Calls about any number or from any hub, where hubs do not stand in the order
/// of their numbers: no branch on the numbers can be foretold, nor which hub is
/// next.
fn any(kind: Kind, n: u32, m: usize) -> Case {
    let mut generator = Generator::new(u64::from(n));
    let calls = (0..MANY).map(|_| match kind {
        Kind::AskAny => Call::Step(0, generator.below(n), generator.next_u32()),
        Kind::RollCall => Call::Roll(generator.below(n)),
        _ => Call::Owner(generator.next_u32()),
    });
    Case {
        kind,
        n,
        m,
        calls: calls.collect(),
        record: scattered(n, m),
        returns: 0,
    }
}

/// The call, and what it returns.
fn call(kind: Kind, n: u32, m: usize) -> Option<(Call, u32)> {
    let middle = n / 2;
    let ring = n >= 3;
    Some(match kind {
        Kind::AskAnswered => (Call::Step(0, middle, identifier(n, middle)), 0),
        Kind::AskSent if ring && m < 256 => (Call::Step(0, middle, identifier(n, middle + 1)), 0),
        Kind::DeliverFirst if m > 0 => (Call::Step(3, 0, u32::from(n > 1)), 0),
        Kind::DeliverOn if ring && m > 2 => (Call::Step(3, 1, 2), 0),
        Kind::DeliverLast if ring && m > 2 => (Call::Step(3, n - 1, 0), 0),
        Kind::Refused if n == 1 => (Call::Step(2, 0, 0), 8),
        Kind::Refused => (Call::Step(3, 0, 0), 9),
        Kind::DamagedFirst | Kind::DamagedLast => (Call::Step(0, middle, 0), 2),
        Kind::Owner => (Call::Owner(identifier(n, middle)), 0),
        _ => return None,
    })
}

/// A mistake that is met early: the state of hub 0.
fn damage_first(record: &mut [u8]) {
    put(record, 4 + 1, 7);
}

/// A mistake in the last word that can have one: the hops of the last message,
/// or where none waits the oldpred of the last hub.
fn damage_last(record: &mut [u8], n: u32, m: usize) {
    if m > 0 {
        put(record, 452 + 6 * m - 1, 65_536);
    } else {
        put(record, 4 + 7 * n as usize - 1, 7);
    }
}

fn put(record: &mut [u8], word: usize, value: u32) {
    record[4 * word..4 * word + 4].copy_from_slice(&value.to_le_bytes());
}
