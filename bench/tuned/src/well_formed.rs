//! Is a record well formed? (document 01, 'Well formed')
//!
//! How rows, messages and unused words are tested is a `Check`'s; the rest is
//! here. Failures are merged by `|` and looked at once: there is no way out of
//! a loop, so the compiler can test several words at a time.

use crate::check::Check;
use crate::lanes::{any, mask, LANES};
use crate::record::{
    message_start, Record, ASKED, FORM, M, MESSAGES, MOST_HUBS, MOST_MESSAGES, N, ROWS, ROW_WORDS,
};
use crate::word::Word;

/// The test of the whole record.
pub fn well_formed<C: Check, W: Word>(record: &Record<W>) -> bool {
    let (n, m) = (record[N].get(), record[M].get());
    let hubs_fit = n >= 1 && n <= MOST_HUBS as u32;
    if record[0].get() != FORM || !hubs_fit || m > MOST_MESSAGES as u32 {
        return false;
    }
    let (rows, unused_rows) = record[ROWS..MESSAGES].split_at(ROW_WORDS * n as usize);
    let messages_end = message_start(m as usize);
    let (messages, unused) = record[MESSAGES..].split_at(messages_end - MESSAGES);
    let faults = twice(rows, n as usize)
        | C::rows_wrong(rows, n)
        | C::messages_wrong(messages, n, record[ASKED].get())
        | C::any_set(unused_rows)
        | C::any_set(unused);
    !faults
}

/// The n identifiers side by side, then again from the first as far as the
/// farthest comparison goes: a place of the last lanes and n/2 places on.
const CIRCLE: usize = MOST_HUBS + MOST_HUBS / 2;

/// Does an identifier stand twice among the rows?
fn twice<W: Word>(rows: &[W], n: usize) -> bool {
    let mut gathered = [0; MOST_HUBS];
    for (place, row) in gathered.iter_mut().zip(rows.chunks_exact(ROW_WORDS)) {
        *place = row[0].get();
    }
    repeats(&gathered, n)
}

/// Does one of the first n identifiers stand twice? Two hubs are at most n/2
/// apart on the circle, so it is enough to compare each identifier with the
/// n/2 that follow it. Lanes past the last hub begin anew with the first.
pub(crate) fn repeats(identifiers: &[u32; MOST_HUBS], n: usize) -> bool {
    let lanes_end = n.div_ceil(LANES) * LANES;
    let mut circle = [0; CIRCLE];
    circle[..n].copy_from_slice(&identifiers[..n]);
    for place in n..lanes_end + n / 2 {
        circle[place] = circle[place - n];
    }
    let mut equal = [0; LANES];
    for apart in 1..=n / 2 {
        let here = circle[..lanes_end].chunks_exact(LANES);
        let there = circle[apart..apart + lanes_end].chunks_exact(LANES);
        for (one, other) in here.zip(there) {
            for lane in 0..LANES {
                equal[lane] |= mask(one[lane] == other[lane]);
            }
        }
    }
    any(&equal)
}
