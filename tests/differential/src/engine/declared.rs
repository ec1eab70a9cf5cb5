//! The engine's twelve C calls, as `include/ring.h` declares them.

extern "C" {
    pub fn ring_fresh(
        words: *mut u8,
        words_len: usize,
        identifiers: *const u8,
        identifiers_len: usize,
    ) -> u32;
    pub fn ring_fresh_by(
        words: *mut u8,
        words_len: usize,
        identifiers: *const u8,
        identifiers_len: usize,
        founder: u32,
    ) -> u32;
    pub fn ring_step(
        words: *mut u8,
        words_len: usize,
        operation: u32,
        x: u32,
        y: u32,
        out: *mut u8,
        out_len: usize,
    ) -> u32;
    pub fn ring_owner(
        words: *const u8,
        words_len: usize,
        number: u32,
        out: *mut u8,
        out_len: usize,
    ) -> u32;
    pub fn ring_roll(
        words: *const u8,
        words_len: usize,
        hub: u32,
        roll: *mut u8,
        roll_len: usize,
        length: *mut u8,
        length_len: usize,
    ) -> u32;
    pub fn ring_fresh_cards(
        words: *mut u8,
        words_len: usize,
        cards: *mut u8,
        cards_len: usize,
        identifiers: *const u8,
        identifiers_len: usize,
    ) -> u32;
    pub fn ring_fresh_by_cards(
        words: *mut u8,
        words_len: usize,
        cards: *mut u8,
        cards_len: usize,
        identifiers: *const u8,
        identifiers_len: usize,
        founder: u32,
    ) -> u32;
    pub fn ring_step_cards(
        words: *mut u8,
        words_len: usize,
        cards: *mut u8,
        cards_len: usize,
        operation: u32,
        x: u32,
        y: u32,
        out: *mut u8,
        out_len: usize,
    ) -> u32;
    pub fn ring_offer(
        words: *const u8,
        words_len: usize,
        cards: *mut u8,
        cards_len: usize,
        machine: u32,
        revision: u32,
        price: u32,
    ) -> u32;
    pub fn ring_route(
        words: *mut u8,
        words_len: usize,
        hub: u32,
        numbers: *const u8,
        numbers_len: usize,
        outcomes: *mut u8,
        outcomes_len: usize,
    ) -> u32;
    pub fn ring_sheet_read(
        text: *const u8,
        text_len: usize,
        identifiers: *mut u8,
        identifiers_len: usize,
        names: *mut u8,
        names_len: usize,
        counts: *mut u8,
        counts_len: usize,
    ) -> u32;
    pub fn ring_sheet_write(
        names: *const u8,
        names_len: usize,
        identifiers: *const u8,
        identifiers_len: usize,
        text: *mut u8,
        text_len: usize,
        counts: *mut u8,
        counts_len: usize,
    ) -> u32;
}
