//! The calls of `include/ring.h` of the models, and of the `csv` crate for the
//! sheet, under names of their own, so that all contestants are called alike:
//! as C calls them, by pointer and length. This crate is compiled by itself and
//! nothing of it is inlined.
//!
//! # Safety
//!
//! As `ring.h` has it: each pointer is valid for the length that goes with
//! it, and no two of one call overlap.

#![allow(clippy::missing_safety_doc, clippy::too_many_arguments)]

use std::mem::size_of;
use std::slice::{from_raw_parts, from_raw_parts_mut};

use ring_model::bytes as plain;
use ring_model_one::bytes as plain_one;
use ring_tuned::bytes as tuned;
use ring_tuned::bytes::in_place;
use ring_tuned::{Fields, Ranges};

mod cards;
mod rolls;
mod routes;
mod sheet;

pub use cards::{
    in_place_offer, in_place_step_cards, plain_offer, plain_one_offer, plain_one_step_cards,
    plain_step_cards, tuned_offer, tuned_step_cards,
};
pub use rolls::{by_ranges_roll, in_place_roll, plain_one_roll, plain_roll, tuned_roll};
pub use routes::{by_ranges_route, in_place_route, plain_one_route, plain_route, tuned_route};
pub use sheet::{csv_sheet_read, csv_sheet_write};

/// The step and the owner query of a model that takes the lent bytes as this
/// type: bytes, or fours of them, which may lie at any address too.
macro_rules! calls {
    ($(#[$about:meta])* $step:ident = $model_step:expr, $owner:ident = $model_owner:expr, $lent:ty) => {
        $(#[$about])*
        #[no_mangle]
        #[inline(never)]
        pub unsafe extern "C" fn $step(
            words: *mut u8,
            words_len: usize,
            operation: u32,
            x: u32,
            y: u32,
            out: *mut u8,
            out_len: usize,
        ) -> u32 {
            let lent = words_len / size_of::<$lent>();
            let words = from_raw_parts_mut(words.cast::<$lent>(), lent);
            $model_step(words, operation, x, y, from_raw_parts_mut(out, out_len))
        }

        $(#[$about])*
        #[no_mangle]
        #[inline(never)]
        pub unsafe extern "C" fn $owner(
            words: *const u8,
            words_len: usize,
            number: u32,
            out: *mut u8,
            out_len: usize,
        ) -> u32 {
            let lent = words_len / size_of::<$lent>();
            let words = from_raw_parts(words.cast::<$lent>(), lent);
            $model_owner(words, number, from_raw_parts_mut(out, out_len))
        }
    };
}

calls!(
    /// The plain model.
    plain_step = plain::ring_step,
    plain_owner = plain::ring_owner,
    u8
);

calls!(
    /// The plain model compiled as one unit.
    plain_one_step = plain_one::ring_step,
    plain_one_owner = plain_one::ring_owner,
    u8
);

calls!(
    /// The tuned model, testing field by field.
    tuned_step = tuned::step::<Fields>,
    tuned_owner = tuned::owner::<Fields>,
    u8
);

calls!(
    /// The tuned model, testing by ranges.
    by_ranges_step = tuned::step::<Ranges>,
    by_ranges_owner = tuned::owner::<Ranges>,
    u8
);

calls!(
    /// The tuned model by ranges on the bytes where they are.
    in_place_step = in_place::step::<Ranges>,
    in_place_owner = in_place::owner::<Ranges>,
    [u8; 4]
);
