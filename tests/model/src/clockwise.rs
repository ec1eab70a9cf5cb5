//! Clockwise arithmetic on the circle of 4294967296 identifiers and keys
//! (document 01, 'Clockwise arithmetic').

/// Distance clockwise from `a` to `b`: b - a modulo 4294967296.
///
/// Computed in 64 bits from document 01's formula, so that it does not lean on
/// the wrap-around of any machine word.
pub fn distance(a: u32, b: u32) -> u32 {
    let circle: u64 = 1 << 32;
    let around = (u64::from(b) + circle - u64::from(a)) % circle;
    around as u32
}

/// Is `v` in the half-open interval (a, b]?
///
/// '(n, n]' is the whole circle, not the empty set: a lone node owns
/// everything.
pub fn in_interval(v: u32, a: u32, b: u32) -> bool {
    if a == b {
        return true;
    }
    let from_a = distance(a, v);
    1 <= from_a && from_a <= distance(a, b)
}
