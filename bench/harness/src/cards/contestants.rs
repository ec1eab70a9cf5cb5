//! Who is measured: the engine and the models where cards are lent, and the
//! engine where none are.

/// `ring_step_cards` of ring.h.
type Step =
    unsafe extern "C" fn(*mut u8, usize, *mut u8, usize, u32, u32, u32, *mut u8, usize) -> u32;
/// `ring_offer` of ring.h.
type Offer = unsafe extern "C" fn(*const u8, usize, *mut u8, usize, u32, u32, u32) -> u32;

mod engine {
    extern "C" {
        pub fn ring_step_cards(
            words: *mut u8,
            words_len: usize,
            cards: *mut u8,
            cards_len: usize,
            operation: u32,
            x: u32,
            y: u32,
            out: *mut u8,
            out_len: usize,
        ) -> u32;
        pub fn ring_offer(
            words: *const u8,
            words_len: usize,
            cards: *mut u8,
            cards_len: usize,
            machine: u32,
            revision: u32,
            price: u32,
        ) -> u32;
    }
}

/// A call with its numbers.
#[derive(Clone, Copy, Debug)]
pub enum Call {
    /// Operation, x, y.
    Step(u32, u32, u32),
    /// Machine, revision, price.
    Offer(u32, u32, u32),
}

/// What a call is lent.
pub struct Lent<'a> {
    pub record: &'a mut [u8],
    pub book: &'a mut [u8],
    pub out: &'a mut [u8],
}

/// One of those measured.
pub struct Contestant {
    pub name: &'static str,
    step: Step,
    offer: Offer,
}

impl Contestant {
    /// Makes the call.
    #[inline]
    pub fn call(&self, call: Call, lent: &mut Lent) -> u32 {
        let (words, words_len) = (lent.record.as_mut_ptr(), lent.record.len());
        let (cards, cards_len) = (lent.book.as_mut_ptr(), lent.book.len());
        let (out, out_len) = (lent.out.as_mut_ptr(), lent.out.len());
        // The pointers and lengths are those of three slices, lent apart.
        unsafe {
            match call {
                Call::Step(operation, x, y) => (self.step)(
                    words, words_len, cards, cards_len, operation, x, y, out, out_len,
                ),
                Call::Offer(machine, revision, price) => {
                    (self.offer)(words, words_len, cards, cards_len, machine, revision, price)
                }
            }
        }
    }
}

/// Places in `CONTESTANTS`; the engine is the first here too.
pub const ENGINE: usize = 0;
pub const PLAIN: usize = 1;
pub const TUNED: usize = 3;
pub const IN_PLACE: usize = 4;
pub const WITHOUT: usize = 5;
/// How many there are.
pub const COUNT: usize = 6;

/// All of them.
pub static CONTESTANTS: [Contestant; COUNT] = [
    Contestant {
        name: "engine",
        step: engine::ring_step_cards,
        offer: engine::ring_offer,
    },
    Contestant {
        name: "plain",
        step: ring_calls::plain_step_cards,
        offer: ring_calls::plain_offer,
    },
    Contestant {
        name: "plain, one unit",
        step: ring_calls::plain_one_step_cards,
        offer: ring_calls::plain_one_offer,
    },
    Contestant {
        name: "tuned",
        step: ring_calls::tuned_step_cards,
        offer: ring_calls::tuned_offer,
    },
    Contestant {
        name: "in place",
        step: ring_calls::in_place_step_cards,
        offer: ring_calls::in_place_offer,
    },
    Contestant {
        name: "engine, no cards",
        step: step_without,
        offer: owner_instead,
    },
];

/// The engine's step on the record alone.
unsafe extern "C" fn step_without(
    words: *mut u8,
    words_len: usize,
    _: *mut u8,
    _: usize,
    operation: u32,
    x: u32,
    y: u32,
    out: *mut u8,
    out_len: usize,
) -> u32 {
    crate::contestants::engine::ring_step(words, words_len, operation, x, y, out, out_len)
}

/// An offer has no counterpart without cards. The engine's owner query asks the
/// record for the same machine.
unsafe extern "C" fn owner_instead(
    words: *const u8,
    words_len: usize,
    _: *mut u8,
    _: usize,
    machine: u32,
    _: u32,
    _: u32,
) -> u32 {
    let mut out = [0; 4];
    crate::contestants::engine::ring_owner(words, words_len, machine, out.as_mut_ptr(), out.len())
}

/// A call that does nothing: what it takes is the measurement's own cost.
pub static IDLE: Contestant = Contestant {
    name: "idle",
    step: idle_step,
    offer: idle_offer,
};

unsafe extern "C" fn idle_step(
    _: *mut u8,
    _: usize,
    _: *mut u8,
    _: usize,
    _: u32,
    _: u32,
    _: u32,
    _: *mut u8,
    _: usize,
) -> u32 {
    0
}

unsafe extern "C" fn idle_offer(
    _: *const u8,
    _: usize,
    _: *mut u8,
    _: usize,
    _: u32,
    _: u32,
    _: u32,
) -> u32 {
    0
}
