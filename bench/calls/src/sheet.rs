//! The calls of the office sheet, by the `csv` crate.

use std::slice::{from_raw_parts, from_raw_parts_mut};

use ring_by_csv::{read, write};

/// `ring_sheet_read`; `counts_len` is sixteen.
#[no_mangle]
#[inline(never)]
pub unsafe extern "C" fn csv_sheet_read(
    text: *const u8,
    text_len: usize,
    identifiers: *mut u8,
    identifiers_len: usize,
    names: *mut u8,
    names_len: usize,
    counts: *mut u8,
    counts_len: usize,
) -> u32 {
    read(
        from_raw_parts(text, text_len),
        from_raw_parts_mut(identifiers, identifiers_len),
        from_raw_parts_mut(names, names_len),
        from_raw_parts_mut(counts, counts_len),
    )
}

/// `ring_sheet_write`; `counts_len` is sixteen.
#[no_mangle]
#[inline(never)]
pub unsafe extern "C" fn csv_sheet_write(
    names: *const u8,
    names_len: usize,
    identifiers: *const u8,
    identifiers_len: usize,
    text: *mut u8,
    text_len: usize,
    counts: *mut u8,
    counts_len: usize,
) -> u32 {
    write(
        from_raw_parts(names, names_len),
        from_raw_parts(identifiers, identifiers_len),
        from_raw_parts_mut(text, text_len),
        from_raw_parts_mut(counts, counts_len),
    )
}
