//! The model's calls under C names, for the fuzzers to compare the engine with.

use std::slice::{from_raw_parts, from_raw_parts_mut};

use ring_model::{bytes, ringrun};

/// `ring_fresh` as the model has it.
///
/// # Safety
/// Each pointer is valid for its length, and the buffers do not overlap.
#[no_mangle]
pub unsafe extern "C" fn model_fresh(
    words: *mut u8,
    words_len: usize,
    identifiers: *const u8,
    identifiers_len: usize,
) -> u32 {
    bytes::ring_fresh(
        from_raw_parts_mut(words, words_len),
        from_raw_parts(identifiers, identifiers_len),
    )
}

/// `ring_fresh_by` as the model has it.
///
/// # Safety
/// As for `model_fresh`.
#[no_mangle]
pub unsafe extern "C" fn model_fresh_by(
    words: *mut u8,
    words_len: usize,
    identifiers: *const u8,
    identifiers_len: usize,
    founder: u32,
) -> u32 {
    bytes::ring_fresh_by(
        from_raw_parts_mut(words, words_len),
        from_raw_parts(identifiers, identifiers_len),
        founder,
    )
}

/// `ring_step` as the model has it.
///
/// # Safety
/// As for `model_fresh`.
#[no_mangle]
pub unsafe extern "C" fn model_step(
    words: *mut u8,
    words_len: usize,
    operation: u32,
    x: u32,
    y: u32,
    out: *mut u8,
    out_len: usize,
) -> u32 {
    bytes::ring_step(
        from_raw_parts_mut(words, words_len),
        operation,
        x,
        y,
        from_raw_parts_mut(out, out_len),
    )
}

/// `ring_route` as the model has it.
///
/// # Safety
/// As for `model_fresh`.
#[no_mangle]
pub unsafe extern "C" fn model_route(
    words: *mut u8,
    words_len: usize,
    hub: u32,
    numbers: *const u8,
    numbers_len: usize,
    outcomes: *mut u8,
    outcomes_len: usize,
) -> u32 {
    bytes::ring_route(
        from_raw_parts_mut(words, words_len),
        hub,
        from_raw_parts(numbers, numbers_len),
        from_raw_parts_mut(outcomes, outcomes_len),
    )
}

/// `ring_owner` as the model has it.
///
/// # Safety
/// As for `model_fresh`.
#[no_mangle]
pub unsafe extern "C" fn model_owner(
    words: *const u8,
    words_len: usize,
    number: u32,
    out: *mut u8,
    out_len: usize,
) -> u32 {
    bytes::ring_owner(
        from_raw_parts(words, words_len),
        number,
        from_raw_parts_mut(out, out_len),
    )
}

/// `ring_roll` as the model has it.
///
/// # Safety
/// As for `model_fresh`.
#[no_mangle]
pub unsafe extern "C" fn model_roll(
    words: *const u8,
    words_len: usize,
    hub: u32,
    roll: *mut u8,
    roll_len: usize,
    length: *mut u8,
    length_len: usize,
) -> u32 {
    bytes::ring_roll(
        from_raw_parts(words, words_len),
        hub,
        from_raw_parts_mut(roll, roll_len),
        from_raw_parts_mut(length, length_len),
    )
}

/// `ring_fresh_cards` as the model has it.
///
/// # Safety
/// As for `model_fresh`.
#[no_mangle]
pub unsafe extern "C" fn model_fresh_cards(
    words: *mut u8,
    words_len: usize,
    cards: *mut u8,
    cards_len: usize,
    identifiers: *const u8,
    identifiers_len: usize,
) -> u32 {
    bytes::ring_fresh_cards(
        from_raw_parts_mut(words, words_len),
        from_raw_parts_mut(cards, cards_len),
        from_raw_parts(identifiers, identifiers_len),
    )
}

/// `ring_fresh_by_cards` as the model has it.
///
/// # Safety
/// As for `model_fresh`.
#[no_mangle]
pub unsafe extern "C" fn model_fresh_by_cards(
    words: *mut u8,
    words_len: usize,
    cards: *mut u8,
    cards_len: usize,
    identifiers: *const u8,
    identifiers_len: usize,
    founder: u32,
) -> u32 {
    bytes::ring_fresh_by_cards(
        from_raw_parts_mut(words, words_len),
        from_raw_parts_mut(cards, cards_len),
        from_raw_parts(identifiers, identifiers_len),
        founder,
    )
}

/// `ring_step_cards` as the model has it.
///
/// # Safety
/// As for `model_fresh`.
#[no_mangle]
pub unsafe extern "C" fn model_step_cards(
    words: *mut u8,
    words_len: usize,
    cards: *mut u8,
    cards_len: usize,
    operation: u32,
    x: u32,
    y: u32,
    out: *mut u8,
    out_len: usize,
) -> u32 {
    bytes::ring_step_cards(
        from_raw_parts_mut(words, words_len),
        from_raw_parts_mut(cards, cards_len),
        operation,
        x,
        y,
        from_raw_parts_mut(out, out_len),
    )
}

/// `ring_offer` as the model has it.
///
/// # Safety
/// As for `model_fresh`.
#[no_mangle]
pub unsafe extern "C" fn model_offer(
    words: *const u8,
    words_len: usize,
    cards: *mut u8,
    cards_len: usize,
    machine: u32,
    revision: u32,
    price: u32,
) -> u32 {
    bytes::ring_offer(
        from_raw_parts(words, words_len),
        from_raw_parts_mut(cards, cards_len),
        machine,
        revision,
        price,
    )
}

/// `ring_sheet_read` as the model has it.
///
/// # Safety
/// As for `model_fresh`.
#[no_mangle]
pub unsafe extern "C" fn model_sheet_read(
    text: *const u8,
    text_len: usize,
    identifiers: *mut u8,
    identifiers_len: usize,
    names: *mut u8,
    names_len: usize,
    counts: *mut u8,
    counts_len: usize,
) -> u32 {
    bytes::ring_sheet_read(
        from_raw_parts(text, text_len),
        from_raw_parts_mut(identifiers, identifiers_len),
        from_raw_parts_mut(names, names_len),
        from_raw_parts_mut(counts, counts_len),
    )
}

/// `ring_sheet_write` as the model has it.
///
/// # Safety
/// As for `model_fresh`.
#[no_mangle]
pub unsafe extern "C" fn model_sheet_write(
    names: *const u8,
    names_len: usize,
    identifiers: *const u8,
    identifiers_len: usize,
    text: *mut u8,
    text_len: usize,
    counts: *mut u8,
    counts_len: usize,
) -> u32 {
    bytes::ring_sheet_write(
        from_raw_parts(names, names_len),
        from_raw_parts(identifiers, identifiers_len),
        from_raw_parts_mut(text, text_len),
        from_raw_parts_mut(counts, counts_len),
    )
}

/// What the model's `ringrun` prints for the input; answers how many bytes that is. Bytes that find no room are counted, not written.
///
/// # Safety
/// As for `model_fresh`.
#[no_mangle]
pub unsafe extern "C" fn model_ringrun(
    input: *const u8,
    input_len: usize,
    out: *mut u8,
    out_len: usize,
) -> usize {
    let mut printed = Vec::new();
    ringrun::run(from_raw_parts(input, input_len), &mut printed).expect("memory takes every write");
    let kept = printed.len().min(out_len);
    from_raw_parts_mut(out, out_len)[..kept].copy_from_slice(&printed[..kept]);
    printed.len()
}
