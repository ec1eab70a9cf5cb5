//! Words side by side, so that the compiler compares several at a time.

/// Words of a group: as many as a register of the plain x86-64 holds.
pub(crate) const GROUP: usize = 4;
/// Words compared at a time.
pub(crate) const LANES: usize = 2 * GROUP;

/// A yes in every bit, as a machine's comparison of registers gives it.
#[inline]
pub(crate) fn mask(yes: bool) -> u32 {
    0_u32.wrapping_sub(u32::from(yes))
}

/// Is a bit set in any lane?
#[inline]
pub(crate) fn any(lanes: &[u32]) -> bool {
    lanes.iter().fold(0, |merged, lane| merged | lane) != 0
}
