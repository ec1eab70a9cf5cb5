//! What an accepted step answers (document 01, 'Answers').

/// Nothing to tell.
pub const QUIET: u32 = 0;
/// A lookup met its owner: all five fields are set.
pub const FOUND: u32 = 1;
/// The join point: node a is taken in.
pub const ENTERED: u32 = 2;
/// The leave point: node f is struck off.
pub const GONE: u32 = 3;
/// A join was turned away at its joiner.
pub const JOIN_TURNED_AWAY: u32 = 4;
/// A leave was turned away at its leaver.
pub const LEAVE_TURNED_AWAY: u32 = 5;
/// A join is over at its joiner.
pub const JOINED: u32 = 6;
/// A leave is over at its leaver.
pub const LEFT: u32 = 7;

/// The five fields, in the order in which they are written out.
#[derive(Clone, Copy, Debug, Default, PartialEq, Eq, Hash)]
pub struct Answer {
    /// Answer kind, 0 to 7.
    pub kind: u32,
    /// The hub that the answer names.
    pub hub: u32,
    /// The machine number asked for; found answers only.
    pub number: u32,
    /// The ticket of the question; found answers only.
    pub ticket: u32,
    /// The deliveries that the question took; found answers only.
    pub hops: u32,
}

impl Answer {
    /// 'Unnamed fields are 0': a quiet answer names none.
    pub fn quiet() -> Answer {
        Answer::default()
    }

    /// Kinds 2 to 7 name a hub and nothing else.
    pub fn naming(kind: u32, hub: u32) -> Answer {
        Answer {
            kind,
            hub,
            ..Answer::default()
        }
    }

    /// A found answer names all fields.
    pub fn found(hub: u32, number: u32, ticket: u32, hops: u32) -> Answer {
        Answer {
            kind: FOUND,
            hub,
            number,
            ticket,
            hops,
        }
    }

    /// The five words 'in the order above'.
    pub fn words(&self) -> [u32; 5] {
        [self.kind, self.hub, self.number, self.ticket, self.hops]
    }
}
