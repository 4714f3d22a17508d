//! Pseudorandom numbers from a seed, and floats of the kinds on which arithmetic goes wrong.

/// The splitmix64 generator.
pub struct Random(u64);

/// Zeros, the ends of each range of floats, halves, NaNs and the values around them, of both signs.
pub const EDGES: [u32; 36] = [
    0x00000000, 0x80000000, 0x00000001, 0x80000001, 0x00000002, 0x80000003, 0x007fffff, 0x807fffff, 0x00800000,
    0x80800000, 0x00800001, 0x1a000000, 0x33800000, 0xb3800000, 0x34000000, 0x3effffff, 0xbeffffff, 0x3f000000,
    0xbf000000, 0x3f7fffff, 0xbf7fffff, 0x3f800000, 0xbf800000, 0x3f800001, 0x43b40000, 0xc3b40000, 0x4affffff,
    0x4b000001, 0xcb800000, 0x5f800000, 0x7f000000, 0x7f7fffff, 0xff7fffff, 0x7f800000, 0xff800000, 0x7fc00000,
];

impl Random {
    pub fn new(seed: u64) -> Random {
        Random(seed)
    }

    pub fn bits(&mut self, count: u32) -> u64 {
        self.0 = self.0.wrapping_add(0x9e3779b97f4a7c15);
        let mut z = self.0;
        z = (z ^ z >> 30).wrapping_mul(0xbf58476d1ce4e5b9);
        z = (z ^ z >> 27).wrapping_mul(0x94d049bb133111eb);
        (z ^ z >> 31) >> (64 - count)
    }

    /// A number from low to high, both included.
    pub fn between(&mut self, low: i64, high: i64) -> i64 {
        low + (self.bits(63) % (high - low + 1) as u64) as i64
    }

    pub fn sign(&mut self) -> f32 {
        if self.bits(1) == 0 { 1.0 } else { -1.0 }
    }

    /// An odd number of exactly so many binary digits.
    pub fn odd(&mut self, digits: u32) -> u64 {
        1 << (digits - 1) | self.bits(digits - 1) | 1
    }

    /// A float with its exponent in a range of those of normal numbers, -126 to 127.
    pub fn with_exponent(&mut self, low: i64, high: i64) -> f32 {
        let exponent = (self.between(low, high) + 127) as u32;
        f32::from_bits((self.bits(1) as u32) << 31 | exponent << 23 | self.bits(23) as u32)
    }

    pub fn subnormal(&mut self) -> f32 {
        let digits = self.between(1, 23) as u32;
        self.sign() * f32::from_bits(self.bits(digits) as u32)
    }

    /// A float near one with few binary digits, as sums and products that are exact have.
    fn few_digits(&mut self) -> f32 {
        let digits = self.between(1, 12) as u32;
        let scale = self.between(-14, 14) as i32;
        self.sign() * self.odd(digits) as f32 * 2f32.powi(scale)
    }

    /// A float of any kind, NaN included.
    pub fn float(&mut self) -> f32 {
        match self.bits(3) {
            0 | 1 => f32::from_bits(self.bits(32) as u32),
            2 | 3 => self.with_exponent(-12, 24),
            4 => f32::from_bits(EDGES[self.bits(32) as usize % EDGES.len()]),
            5 => self.subnormal(),
            6 => self.few_digits(),
            _ => self.with_exponent(120, 127),
        }
    }

    /// The float a few places from x in the order of bit patterns.
    pub fn nudged(&mut self, x: f32) -> f32 {
        f32::from_bits(x.to_bits().wrapping_add(self.between(-3, 3) as u32))
    }
}
