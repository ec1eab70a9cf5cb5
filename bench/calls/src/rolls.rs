//! The roll calls of the models.

use std::mem::size_of;
use std::slice::{from_raw_parts, from_raw_parts_mut};

use ring_model::bytes as plain;
use ring_model_one::bytes as plain_one;
use ring_tuned::bytes as tuned;
use ring_tuned::bytes::in_place;
use ring_tuned::{Fields, Ranges};

/// The roll call of a model that takes the record's bytes as one type, and the
/// roll's as another.
macro_rules! roll_call {
    ($(#[$about:meta])* $roll:ident = $model_roll:expr, $lent:ty, $listed:ty) => {
        $(#[$about])*
        #[no_mangle]
        #[inline(never)]
        pub unsafe extern "C" fn $roll(
            words: *const u8,
            words_len: usize,
            hub: u32,
            roll: *mut u8,
            roll_len: usize,
            length: *mut u8,
            length_len: usize,
        ) -> u32 {
            let (lent, listed) = (size_of::<$lent>(), size_of::<$listed>());
            let words = from_raw_parts(words.cast::<$lent>(), words_len / lent);
            let roll = from_raw_parts_mut(roll.cast::<$listed>(), roll_len / listed);
            $model_roll(words, hub, roll, from_raw_parts_mut(length, length_len))
        }
    };
}

roll_call!(
    /// The plain model.
    plain_roll = plain::ring_roll,
    u8,
    u8
);

roll_call!(
    /// The plain model compiled as one unit.
    plain_one_roll = plain_one::ring_roll,
    u8,
    u8
);

roll_call!(
    /// The tuned model, testing field by field.
    tuned_roll = tuned::roll::<Fields>,
    u8,
    [u8; 4]
);

roll_call!(
    /// The tuned model, testing by ranges.
    by_ranges_roll = tuned::roll::<Ranges>,
    u8,
    [u8; 4]
);

roll_call!(
    /// The tuned model by ranges on the bytes where they are.
    in_place_roll = in_place::roll::<Ranges>,
    [u8; 4],
    [u8; 4]
);
