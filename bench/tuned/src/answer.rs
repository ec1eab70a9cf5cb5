//! What an accepted step answers (document 01, 'Answers').

/// The kinds of an answer.
pub mod kind {
    /// A question met its owner.
    pub const FOUND: u32 = 1;
    /// The hub takes part from now on.
    pub const ENTERED: u32 = 2;
    /// The hub takes part no longer.
    pub const GONE: u32 = 3;
    /// A join was turned away.
    pub const JOIN_TURNED_AWAY: u32 = 4;
    /// A leave was turned away.
    pub const LEAVE_TURNED_AWAY: u32 = 5;
    /// A join is over.
    pub const JOINED: u32 = 6;
    /// A leave is over.
    pub const LEFT: u32 = 7;
}

/// The five fields, in document 01's order; the default is quiet.
#[derive(Clone, Copy, Debug, Default, PartialEq, Eq)]
pub struct Answer {
    /// 0 to 7.
    pub kind: u32,
    /// The hub named.
    pub hub: u32,
    /// The number asked for.
    pub number: u32,
    /// The question's ticket.
    pub ticket: u32,
    /// The question's deliveries.
    pub hops: u32,
}

impl Answer {
    /// An answer that names a hub and nothing else.
    pub fn naming(kind: u32, hub: u32) -> Answer {
        Answer {
            kind,
            hub,
            ..Answer::default()
        }
    }

    /// The five words in order.
    pub fn words(self) -> [u32; 5] {
        [self.kind, self.hub, self.number, self.ticket, self.hops]
    }
}
