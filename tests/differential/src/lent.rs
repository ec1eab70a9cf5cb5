//! Memory that is lent to a call, with guard bytes in front and behind. It exists twice, for the
//! engine and for what is expected, and the two are compared whole: so a byte written outside of
//! what was lent is seen, too.

use ring_model::generator::Generator;

/// Guard bytes behind; as many as a call might write by a wrong count.
const BEHIND: usize = 32;

/// A lent part and its guards, as the engine left them and as they should be.
pub struct Lent {
    engine: Vec<u8>,
    expected: Vec<u8>,
    start: usize,
    length: usize,
}

impl Lent {
    /// Memory of random bytes. The number of guard bytes in front is random, so that parts begin at
    /// every alignment.
    pub fn new(generator: &mut Generator, length: usize) -> Lent {
        let start = 8 + generator.below(8) as usize;
        let engine = random_bytes(generator, start + length + BEHIND);
        Lent { expected: engine.clone(), engine, start, length }
    }

    /// Memory that begins with these bytes, and has as many more as are over.
    pub fn holding(generator: &mut Generator, bytes: &[u8], over: usize) -> Lent {
        let mut lent = Lent::new(generator, bytes.len() + over);
        lent.put(bytes);
        lent
    }

    /// What is lent to the engine.
    pub fn engine(&mut self) -> &mut [u8] {
        &mut self.engine[self.start..self.start + self.length]
    }

    /// What the engine's part should be.
    pub fn expected(&mut self) -> &mut [u8] {
        &mut self.expected[self.start..self.start + self.length]
    }

    /// The part as it should be, to look at.
    pub fn look(&self) -> &[u8] {
        &self.expected[self.start..self.start + self.length]
    }

    /// Puts the same bytes at the start of both.
    pub fn put(&mut self, bytes: &[u8]) {
        let count = bytes.len().min(self.length);
        self.engine()[..count].copy_from_slice(&bytes[..count]);
        self.expected()[..count].copy_from_slice(&bytes[..count]);
    }

    /// Fills both with one byte, so that what a call writes cannot be there already.
    pub fn fill(&mut self, byte: u8) {
        self.engine().fill(byte);
        self.expected().fill(byte);
    }

    /// The first byte that is not as it should be, if there is one.
    pub fn difference(&self, name: &str) -> Option<String> {
        if self.engine == self.expected {
            return None;
        }
        let place = (0..self.engine.len()).find(|&i| self.engine[i] != self.expected[i])?;
        let at = place as i64 - self.start as i64;
        let (found, should) = (self.engine[place], self.expected[place]);
        Some(format!(
            "byte {at} of the {name} ({} bytes lent) is {found:02X}, should be {should:02X}",
            self.length
        ))
    }
}

/// What differs after a call: its number, or a byte of what was lent under these names.
pub fn compare(code: u32, should: u32, lent: &[(&str, &Lent)]) -> Result<(), String> {
    if code != should {
        return Err(format!("returns {code}, should return {should}"));
    }
    let difference = lent.iter().find_map(|(name, lent)| lent.difference(name));
    difference.map_or(Ok(()), Err)
}

/// As many random bytes.
pub fn random_bytes(generator: &mut Generator, length: usize) -> Vec<u8> {
    let mut bytes = Vec::with_capacity(length + 8);
    while bytes.len() < length {
        bytes.extend_from_slice(&generator.next_u64().to_le_bytes());
    }
    bytes.truncate(length);
    bytes
}
