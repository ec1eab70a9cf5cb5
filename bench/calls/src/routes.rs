//! The routes of the models.

use std::mem::size_of;
use std::slice::{from_raw_parts, from_raw_parts_mut};

use ring_model::bytes as plain;
use ring_model_one::bytes as plain_one;
use ring_tuned::bytes as tuned;
use ring_tuned::bytes::in_place;
use ring_tuned::{Fields, Ranges};

/// The route of a model that takes the record's bytes as one type, and numbers
/// and outcomes as another.
macro_rules! route_call {
    ($(#[$about:meta])* $route:ident = $model_route:expr, $lent:ty, $listed:ty) => {
        $(#[$about])*
        #[no_mangle]
        #[inline(never)]
        pub unsafe extern "C" fn $route(
            words: *mut u8,
            words_len: usize,
            hub: u32,
            numbers: *const u8,
            numbers_len: usize,
            outcomes: *mut u8,
            outcomes_len: usize,
        ) -> u32 {
            let (lent, listed) = (size_of::<$lent>(), size_of::<$listed>());
            let words = from_raw_parts_mut(words.cast::<$lent>(), words_len / lent);
            let numbers = from_raw_parts(numbers.cast::<$listed>(), numbers_len / listed);
            let outcomes = from_raw_parts_mut(outcomes.cast::<$listed>(), outcomes_len / listed);
            $model_route(words, hub, numbers, outcomes)
        }
    };
}

route_call!(
    /// The plain model.
    plain_route = plain::ring_route,
    u8,
    u8
);

route_call!(
    /// The plain model compiled as one unit.
    plain_one_route = plain_one::ring_route,
    u8,
    u8
);

route_call!(
    /// The tuned model, testing field by field.
    tuned_route = tuned::route::<Fields>,
    u8,
    [u8; 4]
);

route_call!(
    /// The tuned model, testing by ranges.
    by_ranges_route = tuned::route::<Ranges>,
    u8,
    [u8; 4]
);

route_call!(
    /// The tuned model by ranges on the bytes where they are.
    in_place_route = in_place::route::<Ranges>,
    [u8; 4],
    [u8; 4]
);
