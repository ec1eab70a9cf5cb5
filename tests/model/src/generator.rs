//! A small deterministic generator (the splitmix64 recurrence), so that every
//! random run can be run again from its seed.

/// The generator; equal seeds give equal sequences.
#[derive(Clone, Debug)]
pub struct Generator {
    position: u64,
}

impl Generator {
    /// A generator that starts at `seed`.
    pub fn new(seed: u64) -> Generator {
        Generator { position: seed }
    }

    /// The next 64 bits.
    pub fn next_u64(&mut self) -> u64 {
        self.position = self.position.wrapping_add(0x9E37_79B9_7F4A_7C15);
        let mut mixed = self.position;
        mixed = (mixed ^ (mixed >> 30)).wrapping_mul(0xBF58_476D_1CE4_E5B9);
        mixed = (mixed ^ (mixed >> 27)).wrapping_mul(0x94D0_49BB_1331_11EB);
        mixed ^ (mixed >> 31)
    }

    /// The next 32 bits: the upper half, which mixes best.
    pub fn next_u32(&mut self) -> u32 {
        (self.next_u64() >> 32) as u32
    }

    /// A number below `bound`, or 0 for a bound of 0.
    pub fn below(&mut self, bound: u32) -> u32 {
        if bound == 0 {
            return 0;
        }
        ((u64::from(self.next_u32()) * u64::from(bound)) >> 32) as u32
    }

    /// True in `percent` of 100 cases.
    pub fn chance(&mut self, percent: u32) -> bool {
        self.below(100) < percent
    }

    /// One element of a list, or nothing from an empty one.
    pub fn pick<'a, T>(&mut self, list: &'a [T]) -> Option<&'a T> {
        let index = self.below(list.len() as u32) as usize;
        list.get(index)
    }
}
