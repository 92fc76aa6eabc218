//! A small seeded generator, splitmix64: the same seed gives the same inputs everywhere.

/// The generator's state.
#[derive(Clone, Debug)]
pub struct Random(u64);

impl Random {
    /// A generator for this seed.
    pub fn new(seed: u64) -> Random {
        Random(seed)
    }

    /// The next 64 bits.
    pub fn bits(&mut self) -> u64 {
        self.0 = self.0.wrapping_add(0x9e37_79b9_7f4a_7c15);
        let mut bits = self.0;
        bits = (bits ^ (bits >> 30)).wrapping_mul(0xbf58_476d_1ce4_e5b9);
        bits = (bits ^ (bits >> 27)).wrapping_mul(0x94d0_49bb_1331_11eb);
        bits ^ (bits >> 31)
    }

    /// A number below `bound`, which is not 0.
    pub fn below(&mut self, bound: usize) -> usize {
        (self.bits() % bound as u64) as usize
    }

    /// A number from `low` to `high`, both included.
    pub fn between(&mut self, low: usize, high: usize) -> usize {
        low + self.below(high - low + 1)
    }

    /// True once in `count` times.
    pub fn one_in(&mut self, count: usize) -> bool {
        self.below(count) == 0
    }

    /// One of `choices`, which are not empty.
    pub fn pick<T: Clone>(&mut self, choices: &[T]) -> T {
        choices[self.below(choices.len())].clone()
    }

    /// A number near 2^31, 2^32 or 2^63, or one that is `number` again where it is cut below that bit.
    pub fn far_from(&mut self, number: usize) -> usize {
        let power = 1 << self.pick(&[31, 32, 32, 63]);
        match self.below(4) {
            0 => power + self.below(3),
            1 => power - 1 - self.below(3),
            _ => number.wrapping_add(power),
        }
    }

    /// Any byte.
    pub fn byte(&mut self) -> u8 {
        self.bits() as u8
    }

    /// So many bytes, any.
    pub fn bytes(&mut self, length: usize) -> Vec<u8> {
        let mut bytes = Vec::with_capacity(length + 8);
        while bytes.len() < length {
            bytes.extend_from_slice(&self.bits().to_le_bytes());
        }
        bytes.truncate(length);
        bytes
    }

    /// So many numbers, any.
    pub fn numbers(&mut self, length: usize) -> Vec<usize> {
        (0..length).map(|_| self.bits() as usize).collect()
    }

    /// So many bytes of an alphabet.
    pub fn word(&mut self, alphabet: &[u8], length: usize) -> Vec<u8> {
        (0..length).map(|_| self.pick(alphabet)).collect()
    }

    /// Up to so many blanks.
    pub fn blanks(&mut self, most: usize) -> Vec<u8> {
        let length = self.between(0, most);
        self.word(b" \t", length)
    }
}
