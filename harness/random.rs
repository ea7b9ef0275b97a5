//! A small deterministic generator (SplitMix64), so that a run can be repeated from its seed.

pub struct Random {
    state: u64,
}

impl Random {
    /// A stream of its own for each name, so that a check that is added moves no other.
    pub fn new(seed: u64, name: &str) -> Random {
        let mut state = 0xcbf2_9ce4_8422_2325 ^ seed.wrapping_mul(0x9e37_79b9_7f4a_7c15);
        for byte in name.bytes() {
            state = (state ^ u64::from(byte)).wrapping_mul(0x0000_0100_0000_01b3);
        }
        Random { state }
    }

    pub fn bits(&mut self) -> u64 {
        self.state = self.state.wrapping_add(0x9e37_79b9_7f4a_7c15);
        let mut z = self.state;
        z = (z ^ (z >> 30)).wrapping_mul(0xbf58_476d_1ce4_e5b9);
        z = (z ^ (z >> 27)).wrapping_mul(0x94d0_49bb_1331_11eb);
        z ^ (z >> 31)
    }

    /// A number from 0 to n - 1.
    pub fn below(&mut self, n: u64) -> u64 {
        ((u128::from(self.bits()) * u128::from(n)) >> 64) as u64
    }

    /// True once in n times.
    pub fn one_in(&mut self, n: u64) -> bool {
        self.below(n) == 0
    }

    pub fn choose<T: Copy>(&mut self, from: &[T]) -> T {
        from[self.below(from.len() as u64) as usize]
    }

    /// Any bit pattern: NaNs, infinities and subnormals too.
    pub fn pattern(&mut self) -> f64 {
        f64::from_bits(self.bits())
    }

    /// From 0 to 1, 1 left out.
    pub fn unit(&mut self) -> f64 {
        (self.bits() >> 11) as f64 / (1u64 << 53) as f64
    }

    /// From lo to hi, evenly.
    pub fn between(&mut self, lo: f64, hi: f64) -> f64 {
        (lo + (hi - lo) * self.unit()).clamp(lo, hi)
    }

    /// From lo to hi, neither below zero, with every float as likely as any other, so that each
    /// power of two has its share.
    pub fn scaled(&mut self, lo: f64, hi: f64) -> f64 {
        let (first, last) = (lo.to_bits(), hi.to_bits());
        f64::from_bits(first + self.below(last - first + 1))
    }

    pub fn signed(&mut self, x: f64) -> f64 {
        if self.one_in(2) { -x } else { x }
    }

    /// x or one of its neighbours, up to n floats away.
    pub fn near(&mut self, x: f64, n: u64) -> f64 {
        crate::patterns::moved(x, self.below(2 * n + 1) as i64 - n as i64)
    }
}
