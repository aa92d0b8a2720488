//! Numbers to try: a small generator of its own, so that a seed means the same run everywhere, and the values at which
//! sums and casts turn.

/// splitmix64.
pub struct Random(u64);

impl Random {
    pub fn new(seed: u64) -> Random {
        Random(seed)
    }

    pub fn word(&mut self) -> u64 {
        self.0 = self.0.wrapping_add(0x9e37_79b9_7f4a_7c15);
        let mut z = self.0;
        z = (z ^ (z >> 30)).wrapping_mul(0xbf58_476d_1ce4_e5b9);
        z = (z ^ (z >> 27)).wrapping_mul(0x94d0_49bb_1331_11eb);
        z ^ (z >> 31)
    }

    /// A number below `n`; `n` is not 0.
    pub fn below(&mut self, n: u64) -> u64 {
        self.word() % n
    }

    pub fn one_in(&mut self, n: u64) -> bool {
        self.below(n) == 0
    }

    pub fn pick<T: Copy>(&mut self, of: &[T]) -> T {
        of[self.below(of.len() as u64) as usize]
    }

    pub fn shuffle<T>(&mut self, of: &mut [T]) {
        for k in (1..of.len()).rev() {
            of.swap(k, self.below(k as u64 + 1) as usize);
        }
    }

    /// Every length of number alike, so that products and quotients of every size arise.
    fn of_any_length(&mut self) -> u64 {
        let length = self.below(65);
        if length == 0 { 0 } else { self.word() >> (64 - length) }
    }

    /// A number at or beside a power of two, or beside a multiple of SCALE.
    fn edge(&mut self) -> u64 {
        let near = self.below(5).wrapping_sub(2);
        match self.below(4) {
            0 => near,
            1 => self.of_any_length().wrapping_mul(1_000_000).wrapping_add(near),
            _ => (1u64 << self.below(64)).wrapping_add(near),
        }
    }

    pub fn u64(&mut self) -> u64 {
        if self.one_in(4) { self.edge() } else { self.of_any_length() }
    }

    pub fn i64(&mut self) -> i64 {
        let n = self.u64();
        if self.one_in(2) { n as i64 } else { (n as i64).wrapping_neg() }
    }

    /// Doubles of every kind: any bit pattern, whole numbers and halves with their neighbours, and the ends.
    pub fn f64(&mut self) -> f64 {
        const ENDS: [f64; 10] = [
            0.0,
            0.5,
            1.0,
            4503599627370496.0,
            9007199254740992.0,
            9223372036854775808.0,
            18446744073709551616.0,
            f64::MIN_POSITIVE,
            f64::MAX,
            f64::INFINITY,
        ];
        let x = match self.below(6) {
            0 => f64::from_bits(self.word()),
            1 => self.pick(&ENDS),
            2 => self.of_any_length() as f64,
            3 => self.of_any_length() as f64 / 2.0,
            4 => self.of_any_length() as f64 / (1u64 << self.below(64)) as f64,
            _ => f64::from_bits(self.of_any_length()),
        };
        let beside = match self.below(4) {
            0 => f64::from_bits(x.to_bits().wrapping_add(1)),
            1 => f64::from_bits(x.to_bits().wrapping_sub(1)),
            _ => x,
        };
        if self.one_in(2) { beside } else { -beside }
    }
}
