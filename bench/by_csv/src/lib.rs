//! The office sheet read and written by Debian's `csv` crate, as well as that
//! crate can do it: an anchor to measure the engine against.
//!
//! What it does less than the calls of `ring.h` only makes it faster: it ends
//! at the first fault, and what it wrote until then stays. Some texts that are
//! no sheet it takes, since the crate reads leniently (a CR or LF alone ends a
//! row, an empty line is skipped, a quote may stand anywhere), and it does not
//! look for zero bytes in names.
//!
//! The crate holds 8 KB of text at a time. More of it, or less, was tried, and
//! linking as a whole (`lto`) too: neither saves time.

mod read;
mod write;

pub use read::read;
pub use write::write;

/// Rows and bytes, eight bytes each, lowest first; returns 0, as a call does
/// that was accepted.
fn tell(counts: &mut [u8], rows: usize, bytes: usize) -> u32 {
    let both = [rows as u64, bytes as u64].map(u64::to_le_bytes);
    counts.copy_from_slice(both.as_flattened());
    0
}
