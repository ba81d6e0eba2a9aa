//! The generator (splitmix64).

use std::ops::RangeInclusive;

/// The first number that 16 bits cannot tell.
pub const OVER_16_BITS: usize = 1 << 16;

/// Next to where 16 bits wrap.
pub const NEAR_16_BITS: RangeInclusive<usize> = OVER_16_BITS - 1..=OVER_16_BITS + 1;

pub struct Rng(u64);

impl Rng {
    pub fn new(seed: u64) -> Rng {
        Rng(seed)
    }

    /// The numbers of one call, from its seed and number alone.
    pub fn of_call(seed: u64, call: u64) -> Rng {
        Rng(Rng(seed).next() ^ Rng(!call).next())
    }

    pub fn next(&mut self) -> u64 {
        self.0 = self.0.wrapping_add(0x9e37_79b9_7f4a_7c15);
        let mut z = self.0;
        z = (z ^ (z >> 30)).wrapping_mul(0xbf58_476d_1ce4_e5b9);
        z = (z ^ (z >> 27)).wrapping_mul(0x94d0_49bb_1331_11eb);
        z ^ (z >> 31)
    }

    /// 0 up to, and not including, a bound over 0.
    pub fn below(&mut self, bound: usize) -> usize {
        (self.next() % bound as u64) as usize
    }

    /// From low up to high, both included.
    pub fn between(&mut self, low: usize, high: usize) -> usize {
        low + self.below(high - low + 1)
    }

    pub fn one_in(&mut self, n: usize) -> bool {
        self.below(n) == 0
    }

    pub fn pick<T: Copy>(&mut self, from: &[T]) -> T {
        from[self.below(from.len())]
    }

    pub fn byte(&mut self) -> u8 {
        self.next() as u8
    }

    pub fn bytes(&mut self, length: usize) -> Vec<u8> {
        (0..length).map(|_| self.byte()).collect()
    }

    pub fn numbers(&mut self, length: usize) -> Vec<u32> {
        (0..length).map(|_| self.next() as u32).collect()
    }

    pub fn array<const N: usize>(&mut self) -> [u8; N] {
        let mut array = [0; N];
        array.fill_with(|| self.byte());
        array
    }

    /// Mostly short, seldom thousands.
    pub fn length(&mut self) -> usize {
        let longest = match self.below(1000) {
            0..=99 => 2,
            100..=699 => 40,
            700..=949 => 300,
            950..=994 => 2_000,
            _ => 20_000,
        };
        self.below(longest + 1)
    }

    /// One of [`NEAR_16_BITS`].
    pub fn near_16_bits(&mut self) -> usize {
        self.between(*NEAR_16_BITS.start(), *NEAR_16_BITS.end())
    }

    /// Mostly short, next to where a directory gains an entry, or some thousands.
    pub fn border_length(&mut self) -> usize {
        match self.below(90) {
            0 => self.between(2_000, 6_000),
            1..=30 => self.pick(&[1, 31, 32, 33, 63, 64, 65, 96, 97, 1_024, 1_025]),
            _ => self.length(),
        }
    }
}
