//! Numbers from a seed (splitmix64), the same on every machine.

pub struct Random(u64);

impl Random {
    pub fn new(seed: u64) -> Random {
        Random(seed)
    }

    pub fn word(&mut self) -> u64 {
        self.0 = self.0.wrapping_add(0x9e37_79b9_7f4a_7c15);
        let mut z = self.0;
        z = (z ^ (z >> 30)).wrapping_mul(0xbf58_476d_1ce4_e5b9);
        z = (z ^ (z >> 27)).wrapping_mul(0x94d0_49bb_1331_11eb);
        z ^ (z >> 31)
    }

    /// A number below n.
    pub fn below(&mut self, n: usize) -> usize {
        ((self.word() >> 32) * n as u64 >> 32) as usize
    }

    /// A number from low to high, both among them.
    pub fn between(&mut self, low: i64, high: i64) -> i64 {
        low + (((self.word() >> 32) as i128 * (high - low + 1) as i128) >> 32) as i64
    }

    pub fn chance(&mut self, in_all: usize) -> bool {
        self.below(in_all) == 0
    }

    pub fn pick<T: Copy>(&mut self, from: &[T]) -> T {
        from[self.below(from.len())]
    }

    pub fn i32(&mut self) -> i32 {
        (self.word() >> 32) as i32
    }

    pub fn i16(&mut self) -> i16 {
        (self.word() >> 48) as i16
    }

    /// A 32-bit number of any size: small ones as likely as large ones.
    pub fn sized(&mut self) -> i32 {
        let cut = self.below(32);
        self.i32() >> cut
    }

    /// A 16-bit sample of at most this many bits.
    pub fn sample(&mut self, bits: u32) -> i16 {
        self.i16() >> (16 - bits)
    }
}
