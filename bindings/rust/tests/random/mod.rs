//! A fixed-seed generator (xorshift), so that every run has the same inputs.

pub struct Random(u64);

impl Random {
    pub fn new(seed: u64) -> Random {
        Random(0x9e37_79b9_7f4a_7c15 ^ (seed << 17) ^ seed)
    }

    pub fn next(&mut self) -> u64 {
        self.0 ^= self.0 << 13;
        self.0 ^= self.0 >> 7;
        self.0 ^= self.0 << 17;
        self.0
    }

    /// A number from 0 to `end` - 1.
    pub fn below(&mut self, end: usize) -> usize {
        ((self.next() >> 11) % end as u64) as usize
    }

    pub fn pick<T: Copy>(&mut self, of: &[T]) -> T {
        of[self.below(of.len())]
    }

    /// Terms of 32 bits, the ends among them.
    pub fn terms(&mut self, count: usize) -> Vec<i32> {
        (0..count)
            .map(|_| match self.below(6) {
                0 => i32::MIN,
                1 => i32::MAX,
                2 => self.below(7) as i32 - 3,
                _ => (self.next() >> 32) as i32,
            })
            .collect()
    }

    /// A sum of 64 bits: at an end, near the ends of 32 bits, small, or any.
    pub fn sum(&mut self) -> i64 {
        match self.below(5) {
            0 => self.pick(&[i64::MIN, i64::MAX]),
            1 => self.pick(&[1 << 31, (1 << 31) - 1, -(1 << 31), -(1 << 31) - 1]) * self.pick(&[1, 2, 4, 64]),
            2 => self.below(9) as i64 - 4,
            _ => self.next() as i64 >> self.below(40),
        }
    }
}
