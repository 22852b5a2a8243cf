//! Random numbers.

/// The generator of an event's words, and of seeds.
pub struct SplitMix(pub u64);

impl SplitMix {
    pub fn next(&mut self) -> u64 {
        self.0 = self.0.wrapping_add(0x9E37_79B9_7F4A_7C15);
        let mut z = self.0;
        z = (z ^ (z >> 30)).wrapping_mul(0xBF58_476D_1CE4_E5B9);
        z = (z ^ (z >> 27)).wrapping_mul(0x94D0_49BB_1331_11EB);
        z ^ (z >> 31)
    }
}

/// Xoshiro256++, the generator of attempts and orders.
pub struct Xoshiro([u64; 4]);

impl Xoshiro {
    pub fn new(seed: u64) -> Self {
        let mut words = SplitMix(seed);
        Xoshiro(std::array::from_fn(|_| words.next()))
    }

    pub fn next(&mut self) -> u64 {
        let s = &mut self.0;
        let out = s[0].wrapping_add(s[3]).rotate_left(23).wrapping_add(s[0]);
        let t = s[1] << 17;
        s[2] ^= s[0];
        s[3] ^= s[1];
        s[1] ^= s[2];
        s[0] ^= s[3];
        s[2] ^= t;
        s[3] = s[3].rotate_left(45);
        out
    }
}

/// A divisor. A remainder by it takes some multiplications, in place of a division of 64 bits, which takes longer.
pub struct Divisor {
    divisor: u64,
    /// 2^128 divided by it, rounded up, modulo 2^128.
    inverse: u128,
}

impl Divisor {
    pub fn new(divisor: u64) -> Self {
        Divisor { divisor, inverse: (u128::MAX / u128::from(divisor)).wrapping_add(1) }
    }

    /// The remainder of a number: the divisor times the fractional part of their quotient, which 128 bits tell exactly.
    pub fn remainder(&self, n: u64) -> u64 {
        let fraction = self.inverse.wrapping_mul(u128::from(n));
        let divisor = u128::from(self.divisor);
        let low = (fraction & u128::from(u64::MAX)) * divisor;
        (((fraction >> 64) * divisor + (low >> 64)) >> 64) as u64
    }
}
