//! Random numbers that depend on the seed and on nothing else (the generator splitmix64).

pub struct Rng(u64);

impl Rng {
    /// A stream for a seed and a label, so that each operation has its own and a new operation does
    /// not change the questions of the others.
    pub fn new(seed: u64, label: &str) -> Self {
        let mut rng = Rng(seed);
        for byte in label.bytes() {
            rng.0 ^= u64::from(byte);
            rng.0 = rng.bits();
        }
        rng
    }

    pub fn bits(&mut self) -> u64 {
        self.0 = self.0.wrapping_add(0x9E37_79B9_7F4A_7C15);
        let mut z = self.0;
        z = (z ^ (z >> 30)).wrapping_mul(0xBF58_476D_1CE4_E5B9);
        z = (z ^ (z >> 27)).wrapping_mul(0x94D0_49BB_1331_11EB);
        z ^ (z >> 31)
    }

    /// A whole number below `end`, which is not 0. (Slightly uneven, which does not matter here.)
    pub fn below(&mut self, end: usize) -> usize {
        (self.bits() % end as u64) as usize
    }

    /// True this many times in a hundred.
    pub fn percent(&mut self, share: usize) -> bool {
        self.below(100) < share
    }

    pub fn pick<T: Copy>(&mut self, from: &[T]) -> T {
        from[self.below(from.len())]
    }

    /// A double from 0 up to 1, of 53 random bits.
    pub fn unit(&mut self) -> f64 {
        (self.bits() >> 11) as f64 / (1u64 << 53) as f64
    }
}
