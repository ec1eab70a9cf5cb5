//! What carries one word of 32 bits.

/// One word in memory. The model is written once for all carriers, and
/// compiled for each.
pub trait Word: Copy {
    /// The number that the word holds.
    fn get(self) -> u32;
    /// The word that holds a number.
    fn of(number: u32) -> Self;
}

impl Word for u32 {
    #[inline]
    fn get(self) -> u32 {
        self
    }

    #[inline]
    fn of(number: u32) -> u32 {
        number
    }
}

/// Four bytes, lowest first, at any address: the record where C keeps it.
impl Word for [u8; 4] {
    #[inline]
    fn get(self) -> u32 {
        u32::from_le_bytes(self)
    }

    #[inline]
    fn of(number: u32) -> [u8; 4] {
        number.to_le_bytes()
    }
}
