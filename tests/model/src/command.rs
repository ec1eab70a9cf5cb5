//! A command: three 32-bit numbers (document 01, 'Commands and their
//! messages').

/// Operation 0: ask hub x for number y.
pub const ASK: u32 = 0;
/// Operation 1: hub x joins by contact y.
pub const JOIN: u32 = 1;
/// Operation 2: hub x leaves; y is not read.
pub const LEAVE: u32 = 2;
/// Operation 3: deliver the oldest message from x to y.
pub const DELIVER: u32 = 3;

/// Any three numbers; only some are accepted.
#[derive(Clone, Copy, Debug, PartialEq, Eq, Hash)]
pub struct Command {
    /// 0 to 3 for a command that reads.
    pub operation: u32,
    /// A hub number.
    pub x: u32,
    /// A machine number, a hub number, or not read.
    pub y: u32,
}

impl Command {
    /// The command of these three numbers.
    pub fn new(operation: u32, x: u32, y: u32) -> Command {
        Command { operation, x, y }
    }
}
