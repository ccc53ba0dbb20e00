//! A small generator (xorshift64*), and doubles of every kind. Seeded, so that a run can be repeated.
pub struct Random(u64);

impl Random {
    pub fn new(seed: u64) -> Self {
        let mut r = Random(seed.wrapping_mul(0x9e37_79b9_7f4a_7c15) ^ 0x6a09_e667_f3bc_c908);
        for _ in 0..8 {
            r.next();
        }
        r
    }

    /// Of a numbered part of a run.
    pub fn of_part(seed: u64, part: u64) -> Self {
        let mut r = Random::new(seed);
        Random::new(r.next() ^ part.wrapping_mul(0xd6e8_feb8_6659_fd93))
    }

    pub fn next(&mut self) -> u64 {
        self.0 ^= self.0 >> 12;
        self.0 ^= self.0 << 25;
        self.0 ^= self.0 >> 27;
        self.0.wrapping_mul(0x2545_f491_4f6c_dd1d)
    }

    /// Below n.
    pub fn below(&mut self, n: u64) -> u64 {
        ((self.next() as u128 * n as u128) >> 64) as u64
    }

    /// From a to b, both among them.
    pub fn from_to(&mut self, a: usize, b: usize) -> usize {
        a + self.below((b - a + 1) as u64) as usize
    }

    pub fn one_in(&mut self, n: u64) -> bool {
        self.below(n) == 0
    }

    /// In 0 to 1.
    pub fn unit(&mut self) -> f64 {
        (self.next() >> 11) as f64 / (1u64 << 53) as f64
    }

    pub fn of<'a, T>(&mut self, list: &'a [T]) -> &'a T {
        &list[self.below(list.len() as u64) as usize]
    }

    /// Any bit pattern, with the edges more often than chance has them.
    pub fn double(&mut self) -> f64 {
        const EDGES: [f64; 16] = [
            0.0, -0.0, 1.0, -1.0, 0.5, 2.0, f64::NAN, f64::INFINITY, f64::NEG_INFINITY, f64::MAX, f64::MIN, f64::MIN_POSITIVE, 5e-324, 1e6, -1e6, 1e-7,
        ];
        match self.below(4) {
            0 => *self.of(&EDGES),
            1 => f64::from_bits(self.of(&EDGES).to_bits().wrapping_add(self.below(5)).wrapping_sub(2)),
            2 => f64::from_bits(self.next()),
            _ => self.unit() * 4.0 - 2.0,
        }
    }
}

/// Equal bits, or two NaN.
pub fn same(a: f64, b: f64) -> bool {
    a.to_bits() == b.to_bits() || (a.is_nan() && b.is_nan())
}

pub fn all_same(a: &[f64], b: &[f64]) -> bool {
    a.len() == b.len() && a.iter().zip(b).all(|(&x, &y)| same(x, y))
}

/// Seconds of this process's time that a run of `f` takes, the least of `times` runs.
pub fn least_seconds(times: usize, mut f: impl FnMut()) -> f64 {
    (0..times)
        .map(|_| {
            let start = std::time::Instant::now();
            f();
            start.elapsed().as_secs_f64()
        })
        .fold(f64::INFINITY, f64::min)
}
