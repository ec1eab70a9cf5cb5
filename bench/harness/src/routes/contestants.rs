//! Who is measured: the routes of the engine and of the models, and the
//! engine's steps one by one.

use crate::contestants::engine::ring_step;

/// `ring_route` of ring.h.
type Route = unsafe extern "C" fn(*mut u8, usize, u32, *const u8, usize, *mut u8, usize) -> u32;

mod engine {
    extern "C" {
        pub fn ring_route(
            words: *mut u8,
            words_len: usize,
            hub: u32,
            numbers: *const u8,
            numbers_len: usize,
            outcomes: *mut u8,
            outcomes_len: usize,
        ) -> u32;
    }
}

/// What a call is lent.
pub struct Lent<'a> {
    pub record: &'a mut [u8],
    pub numbers: &'a [u8],
    pub outcomes: &'a mut [u8],
}

/// One of those measured.
pub struct Contestant {
    pub name: &'static str,
    route: Route,
}

impl Contestant {
    const fn new(name: &'static str, route: Route) -> Contestant {
        Contestant { name, route }
    }

    /// Makes the call.
    #[inline]
    pub fn call(&self, hub: u32, lent: &mut Lent) -> u32 {
        let (words, words_len) = (lent.record.as_mut_ptr(), lent.record.len());
        let (numbers, numbers_len) = (lent.numbers.as_ptr(), lent.numbers.len());
        let (outcomes, outcomes_len) = (lent.outcomes.as_mut_ptr(), lent.outcomes.len());
        // The pointers and lengths are those of three slices, lent apart.
        unsafe {
            (self.route)(
                words,
                words_len,
                hub,
                numbers,
                numbers_len,
                outcomes,
                outcomes_len,
            )
        }
    }
}

/// Places in `CONTESTANTS`: all but the last are those of the other calls, so
/// that the ratios are the same.
pub const ENGINE: usize = crate::contestants::ENGINE;
pub const PLAIN: usize = crate::contestants::PLAIN;
pub const ONE_BY_ONE: usize = crate::contestants::COUNT;
/// How many there are.
pub const COUNT: usize = ONE_BY_ONE + 1;

/// All of them.
pub static CONTESTANTS: [Contestant; COUNT] = [
    Contestant::new("engine", engine::ring_route),
    Contestant::new("plain", ring_calls::plain_route),
    Contestant::new("plain, one unit", ring_calls::plain_one_route),
    Contestant::new("tuned", ring_calls::tuned_route),
    Contestant::new("by ranges", ring_calls::by_ranges_route),
    Contestant::new("in place", ring_calls::in_place_route),
    Contestant::new("engine, one by one", one_by_one),
];

/// The engine's step for each number, its answer and what it returned in the
/// number's place. The questions of a route's own are not asked here.
unsafe extern "C" fn one_by_one(
    words: *mut u8,
    words_len: usize,
    hub: u32,
    numbers: *const u8,
    numbers_len: usize,
    outcomes: *mut u8,
    _: usize,
) -> u32 {
    for i in 0..numbers_len / 4 {
        let number = u32::from_le_bytes(*numbers.cast::<[u8; 4]>().add(i));
        let place = outcomes.add(24 * i);
        let refused = ring_step(words, words_len, 0, hub, number, place.add(4), 20);
        *place.cast::<[u8; 4]>() = refused.to_le_bytes();
        if refused != 0 {
            *place.add(4).cast::<[u8; 20]>() = [0; 20];
        }
    }
    0
}

/// A call that does nothing: what it takes is the measurement's own cost.
pub static IDLE: Contestant = Contestant::new("idle", idle);

unsafe extern "C" fn idle(
    _: *mut u8,
    _: usize,
    _: u32,
    _: *const u8,
    _: usize,
    _: *mut u8,
    _: usize,
) -> u32 {
    0
}
