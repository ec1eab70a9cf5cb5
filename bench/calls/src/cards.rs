//! The calls of the models that are lent a card slice too.

use std::mem::size_of;
use std::slice::{from_raw_parts, from_raw_parts_mut};

use ring_model::bytes as plain;
use ring_model_one::bytes as plain_one;
use ring_tuned::bytes as tuned;
use ring_tuned::bytes::in_place;
use ring_tuned::{Fields, Ranges};

/// The step with cards and the offer of a model that takes the lent bytes as
/// this type.
macro_rules! card_calls {
    ($(#[$about:meta])* $step:ident = $model_step:expr, $offer:ident = $model_offer:expr, $lent:ty) => {
        $(#[$about])*
        #[no_mangle]
        #[inline(never)]
        pub unsafe extern "C" fn $step(
            words: *mut u8,
            words_len: usize,
            cards: *mut u8,
            cards_len: usize,
            operation: u32,
            x: u32,
            y: u32,
            out: *mut u8,
            out_len: usize,
        ) -> u32 {
            let words = from_raw_parts_mut(words.cast::<$lent>(), words_len / size_of::<$lent>());
            let cards = from_raw_parts_mut(cards.cast::<$lent>(), cards_len / size_of::<$lent>());
            $model_step(words, cards, operation, x, y, from_raw_parts_mut(out, out_len))
        }

        $(#[$about])*
        #[no_mangle]
        #[inline(never)]
        pub unsafe extern "C" fn $offer(
            words: *const u8,
            words_len: usize,
            cards: *mut u8,
            cards_len: usize,
            machine: u32,
            revision: u32,
            price: u32,
        ) -> u32 {
            let words = from_raw_parts(words.cast::<$lent>(), words_len / size_of::<$lent>());
            let cards = from_raw_parts_mut(cards.cast::<$lent>(), cards_len / size_of::<$lent>());
            $model_offer(words, cards, machine, revision, price)
        }
    };
}

card_calls!(
    /// The plain model.
    plain_step_cards = plain::ring_step_cards,
    plain_offer = plain::ring_offer,
    u8
);

card_calls!(
    /// The plain model compiled as one unit.
    plain_one_step_cards = plain_one::ring_step_cards,
    plain_one_offer = plain_one::ring_offer,
    u8
);

card_calls!(
    /// The tuned model, testing field by field.
    tuned_step_cards = tuned::step_cards::<Fields>,
    tuned_offer = tuned::offer::<Fields>,
    u8
);

card_calls!(
    /// The tuned model by ranges on the bytes where they are.
    in_place_step_cards = in_place::step_cards::<Ranges>,
    in_place_offer = in_place::offer::<Ranges>,
    [u8; 4]
);
