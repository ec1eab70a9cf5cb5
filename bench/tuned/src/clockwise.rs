//! Clockwise arithmetic (document 01).

/// Distance clockwise from `a` to `b`.
#[inline]
pub fn distance(a: u32, b: u32) -> u32 {
    b.wrapping_sub(a)
}

/// Is `v` in (a, b]? Both distances are taken from the number after a: then
/// v = a is the farthest of all, and b = a makes the whole circle, so one
/// comparison is enough.
#[inline]
pub fn in_interval(v: u32, a: u32, b: u32) -> bool {
    let first = a.wrapping_add(1);
    distance(first, v) <= distance(first, b)
}
