//! Pseudo-random numbers for the makers of tests: all of them follow from the seed.

// Each program uses its part.
#![allow(dead_code)]

/// xorshift64* generator.
pub struct Random {
    state: u64,
}

impl Random {
    /// A generator whose whole output follows from the seed.
    pub fn new(seed: u64) -> Random {
        let mixed = seed ^ 0x9E37_79B9_7F4A_7C15;
        let mut random = Random {
            state: if mixed == 0 { 1 } else { mixed },
        };
        for _ in 0..32 {
            random.next();
        }
        random
    }

    /// The next 64 bits.
    pub fn next(&mut self) -> u64 {
        self.state ^= self.state >> 12;
        self.state ^= self.state << 25;
        self.state ^= self.state >> 27;
        self.state.wrapping_mul(0x2545_F491_4F6C_DD1D)
    }

    /// A number below n.
    pub fn below(&mut self, n: u64) -> u64 {
        (self.next() >> 16) % n
    }

    /// True once in n times.
    pub fn once_in(&mut self, n: u64) -> bool {
        self.below(n) == 0
    }

    /// One of the given values.
    pub fn pick<T: Copy>(&mut self, values: &[T]) -> T {
        values[self.below(values.len() as u64) as usize]
    }

    /// So many different ones of the given numbers.
    pub fn some_of(&mut self, numbers: &[usize], count: usize) -> Vec<usize> {
        let mut left = numbers.to_vec();
        (0..count.min(left.len()))
            .map(|_| left.swap_remove(self.below(left.len() as u64) as usize))
            .collect()
    }

    /// A whole number from low to high.
    pub fn between(&mut self, low: i64, high: i64) -> i64 {
        low + self.below((high - low) as u64 + 1) as i64
    }

    /// A value in 0..=last, the ends often.
    pub fn inside(&mut self, last: u8) -> u8 {
        match self.below(5) {
            0 => 0,
            1 => last,
            _ => self.between(0, i64::from(last)) as u8,
        }
    }

    /// A value past last (which is below 255), the ends often.
    pub fn outside(&mut self, last: u8) -> u8 {
        match self.below(3) {
            0 => last + 1,
            1 => 255,
            _ => self.between(i64::from(last) + 1, 255) as u8,
        }
    }

    /// Mostly a value in 0..=last, sometimes one past it.
    pub fn around(&mut self, last: u8) -> u8 {
        if self.once_in(4) {
            self.outside(last)
        } else {
            self.inside(last)
        }
    }
}
