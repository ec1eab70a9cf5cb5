//! The ring record: its layout in 32-bit words and its typed form (document
//! 01, 'Ring record').

use crate::refusal;

pub use crate::well_formed::{all_different, well_formed};

/// Words of a record; 'later ones are never read or written'.
pub const RECORD_WORDS: usize = 1988;
/// Word 0 of a record.
pub const FORM: u32 = 1;
/// Most nodes in a record.
pub const MAX_NODES: usize = 64;
/// Most messages in flight.
pub const MAX_MESSAGES: usize = 256;
/// Words of a row (document 01: hub row).
pub const ROW_WORDS: usize = 7;
/// Words of a message.
pub const MESSAGE_WORDS: usize = 6;
/// A pointer to no node.
pub const NONE: u32 = 255;
/// Hops stay here once there.
pub const MAX_HOPS: u32 = 65_535;

const FIRST_ROW: usize = 4;
const FIRST_MESSAGE: usize = 452;

// The three parts of the record meet without a gap and end with the record.
const _: () = assert!(FIRST_ROW + ROW_WORDS * MAX_NODES == FIRST_MESSAGE);
const _: () = assert!(FIRST_MESSAGE + MESSAGE_WORDS * MAX_MESSAGES == RECORD_WORDS);

/// State of a node outside the ring.
pub const OUTSIDE: u32 = 0;
/// State of a node whose join is under way and not yet pointed.
pub const JOINING: u32 = 1;
/// State of a node inside the ring.
pub const INSIDE: u32 = 2;
/// State of a node that has asked its successor to let it leave.
pub const WANTING_TO_LEAVE: u32 = 3;
/// State of a node that was granted its leave and only sends on.
pub const LEAVING: u32 = 4;

/// Where the row of a node starts.
pub fn row_start(node: usize) -> usize {
    FIRST_ROW + ROW_WORDS * node
}

/// Where message j starts.
pub fn message_start(j: usize) -> usize {
    FIRST_MESSAGE + MESSAGE_WORDS * j
}

/// One node's row, typed.
#[derive(Clone, Copy, Debug, PartialEq, Eq, Hash)]
pub struct Row {
    /// Place of the node on the circle.
    pub identifier: u32,
    /// One of the five states.
    pub state: u32,
    /// True when taken.
    pub lock: bool,
    /// The forward flag.
    pub flag: bool,
    /// Node number of the predecessor, or none.
    pub pred: u32,
    /// Node number of the successor, or none.
    pub succ: u32,
    /// Predecessor from before a join at this node, or none.
    pub oldpred: u32,
}

impl Row {
    /// 'State 2 to 4': the node is part of the ring and has both pointers.
    pub fn in_ring(&self) -> bool {
        matches!(self.state, INSIDE | WANTING_TO_LEAVE | LEAVING)
    }

    fn from_words(words: &[u32]) -> Row {
        Row {
            identifier: words[0],
            state: words[1],
            lock: words[2] == 1,
            flag: words[3] == 1,
            pred: words[4],
            succ: words[5],
            oldpred: words[6],
        }
    }

    fn words(&self) -> [u32; ROW_WORDS] {
        [
            self.identifier,
            self.state,
            u32::from(self.lock),
            u32::from(self.flag),
            self.pred,
            self.succ,
            self.oldpred,
        ]
    }
}

/// One message in flight (document 01: waiting message), typed.
#[derive(Clone, Copy, Debug, PartialEq, Eq, Hash)]
pub struct Message {
    /// One of the fourteen kinds.
    pub kind: u32,
    /// The node that sent it, or sent it on.
    pub from: u32,
    /// The node that receives it.
    pub to: u32,
    /// A key for LOOKUP, a node number for JOIN, JOINPOINT, NEWSUCCACK and
    /// LEAVEPOINT, otherwise 0.
    pub a: u32,
    /// The ticket of a LOOKUP, otherwise 0.
    pub b: u32,
    /// The deliveries of a LOOKUP so far, otherwise 0.
    pub hops: u32,
}

impl Message {
    fn from_words(words: &[u32]) -> Message {
        Message {
            kind: words[0],
            from: words[1],
            to: words[2],
            a: words[3],
            b: words[4],
            hops: words[5],
        }
    }

    fn words(&self) -> [u32; MESSAGE_WORDS] {
        [self.kind, self.from, self.to, self.a, self.b, self.hops]
    }
}

/// The typed form of a well-formed record.
#[derive(Clone, Debug, PartialEq, Eq, Hash)]
pub struct State {
    /// Tickets given out so far.
    pub asked: u32,
    /// The n rows, by node number.
    pub rows: Vec<Row>,
    /// The m messages in flight, oldest first.
    pub messages: Vec<Message>,
}

impl State {
    /// Asks questions 1 and 2 of every call but fresh, then reads the record.
    pub fn read(words: &[u32]) -> Result<State, u32> {
        if words.len() < RECORD_WORDS {
            return Err(refusal::RECORD_SHORT);
        }
        if !well_formed(words) {
            return Err(refusal::NOT_WELL_FORMED);
        }
        let n = words[1] as usize;
        let m = words[2] as usize;
        Ok(State {
            asked: words[3],
            rows: (0..n)
                .map(|i| Row::from_words(row_words(words, i)))
                .collect(),
            messages: (0..m)
                .map(|j| Message::from_words(message_words(words, j)))
                .collect(),
        })
    }

    /// Writes the record back: exactly its 1,988 words, the unused ones 0.
    /// The caller has made sure that there are that many.
    pub fn write(&self, words: &mut [u32]) {
        let record = &mut words[..RECORD_WORDS];
        record.fill(0);
        record[0] = FORM;
        record[1] = self.rows.len() as u32;
        record[2] = self.messages.len() as u32;
        record[3] = self.asked;
        for (i, row) in self.rows.iter().enumerate() {
            let start = row_start(i);
            record[start..start + ROW_WORDS].copy_from_slice(&row.words());
        }
        for (j, message) in self.messages.iter().enumerate() {
            let start = message_start(j);
            record[start..start + MESSAGE_WORDS].copy_from_slice(&message.words());
        }
    }

    /// The hub count n.
    pub fn n(&self) -> u32 {
        self.rows.len() as u32
    }

    /// The row of a node whose number is known to be below n.
    pub fn row(&self, node: u32) -> &Row {
        &self.rows[node as usize]
    }

    /// The row of a node whose number is known to be below n, for changing.
    pub fn row_mut(&mut self, node: u32) -> &mut Row {
        &mut self.rows[node as usize]
    }
}

/// The seven words of a row of a record.
pub(crate) fn row_words(words: &[u32], i: usize) -> &[u32] {
    &words[row_start(i)..row_start(i) + ROW_WORDS]
}

/// The six words of a message of a record.
pub(crate) fn message_words(words: &[u32], j: usize) -> &[u32] {
    &words[message_start(j)..message_start(j) + MESSAGE_WORDS]
}
