//! Who is measured: the engine and the models, all called as C calls them.

/// `ring_step` of ring.h.
type Step = unsafe extern "C" fn(*mut u8, usize, u32, u32, u32, *mut u8, usize) -> u32;
/// `ring_owner` of ring.h.
type Owner = unsafe extern "C" fn(*const u8, usize, u32, *mut u8, usize) -> u32;
/// `ring_roll` of ring.h.
type Roll = unsafe extern "C" fn(*const u8, usize, u32, *mut u8, usize, *mut u8, usize) -> u32;

pub mod engine {
    extern "C" {
        pub fn ring_step(
            words: *mut u8,
            words_len: usize,
            operation: u32,
            x: u32,
            y: u32,
            out: *mut u8,
            out_len: usize,
        ) -> u32;
        pub fn ring_owner(
            words: *const u8,
            words_len: usize,
            number: u32,
            out: *mut u8,
            out_len: usize,
        ) -> u32;
        pub fn ring_roll(
            words: *const u8,
            words_len: usize,
            hub: u32,
            roll: *mut u8,
            roll_len: usize,
            length: *mut u8,
            length_len: usize,
        ) -> u32;
    }
}

/// Bytes at the start of an output that a roll call has for its length.
const LENGTH: usize = 4;
/// Bytes of an output: a roll of 64 hubs and its length; an answer is shorter.
pub const OUT: usize = LENGTH + 4 * 64;

/// A call with its numbers.
#[derive(Clone, Copy, Debug)]
pub enum Call {
    /// Operation, x, y.
    Step(u32, u32, u32),
    /// The number asked for.
    Owner(u32),
    /// The hub from which the roll is called.
    Roll(u32),
}

/// One of those measured.
pub struct Contestant {
    pub name: &'static str,
    step: Step,
    owner: Owner,
    roll: Roll,
}

impl Contestant {
    /// Makes the call on this record and output.
    #[inline]
    pub fn call(&self, call: Call, record: &mut [u8], out: &mut [u8; OUT]) -> u32 {
        let (words, words_len) = (record.as_mut_ptr(), record.len());
        let (answer, answer_len) = (out.as_mut_ptr(), OUT);
        // The pointers and lengths are those of two slices, lent apart; a roll and its length are
        // two parts of the second.
        unsafe {
            match call {
                Call::Step(operation, x, y) => {
                    (self.step)(words, words_len, operation, x, y, answer, answer_len)
                }
                Call::Owner(number) => (self.owner)(words, words_len, number, answer, answer_len),
                Call::Roll(hub) => {
                    let roll = answer.add(LENGTH);
                    (self.roll)(words, words_len, hub, roll, OUT - LENGTH, answer, LENGTH)
                }
            }
        }
    }
}

/// Places in `CONTESTANTS`, and so in every list of figures.
pub const ENGINE: usize = 0;
pub const PLAIN: usize = 1;
pub const PLAIN_ONE: usize = 2;
pub const TUNED: usize = 3;
pub const BY_RANGES: usize = 4;
pub const IN_PLACE: usize = 5;
/// How many there are.
pub const COUNT: usize = 6;

/// All of them.
pub static CONTESTANTS: [Contestant; COUNT] = [
    Contestant {
        name: "engine",
        step: engine::ring_step,
        owner: engine::ring_owner,
        roll: engine::ring_roll,
    },
    Contestant {
        name: "plain",
        step: ring_calls::plain_step,
        owner: ring_calls::plain_owner,
        roll: ring_calls::plain_roll,
    },
    Contestant {
        name: "plain, one unit",
        step: ring_calls::plain_one_step,
        owner: ring_calls::plain_one_owner,
        roll: ring_calls::plain_one_roll,
    },
    Contestant {
        name: "tuned",
        step: ring_calls::tuned_step,
        owner: ring_calls::tuned_owner,
        roll: ring_calls::tuned_roll,
    },
    Contestant {
        name: "by ranges",
        step: ring_calls::by_ranges_step,
        owner: ring_calls::by_ranges_owner,
        roll: ring_calls::by_ranges_roll,
    },
    Contestant {
        name: "in place",
        step: ring_calls::in_place_step,
        owner: ring_calls::in_place_owner,
        roll: ring_calls::in_place_roll,
    },
];

/// A call that does nothing: what it takes is the measurement's own cost.
pub static IDLE: Contestant = Contestant {
    name: "idle",
    step: idle_step,
    owner: idle_owner,
    roll: idle_roll,
};

unsafe extern "C" fn idle_step(
    _: *mut u8,
    _: usize,
    _: u32,
    _: u32,
    _: u32,
    _: *mut u8,
    _: usize,
) -> u32 {
    0
}

unsafe extern "C" fn idle_owner(_: *const u8, _: usize, _: u32, _: *mut u8, _: usize) -> u32 {
    0
}

unsafe extern "C" fn idle_roll(
    _: *const u8,
    _: usize,
    _: u32,
    _: *mut u8,
    _: usize,
    _: *mut u8,
    _: usize,
) -> u32 {
    0
}

#[cfg(test)]
mod tests;
