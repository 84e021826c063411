//! Numbers to try: a generator of its own, so that every run has the same ones, and the values at
//! which arithmetic turns.

/// SplitMix64.
pub struct Random(pub u64);

impl Random {
    pub fn next(&mut self) -> u64 {
        self.0 = self.0.wrapping_add(0x9E37_79B9_7F4A_7C15);
        let mut z = self.0;
        z = (z ^ (z >> 30)).wrapping_mul(0xBF58_476D_1CE4_E5B9);
        z = (z ^ (z >> 27)).wrapping_mul(0x94D0_49BB_1331_11EB);
        z ^ (z >> 31)
    }

    /// Below n.
    pub fn below(&mut self, n: u64) -> u64 {
        self.next() % n
    }

    pub fn coin(&mut self) -> bool {
        self.next() >> 63 != 0
    }

    pub fn pick<T: Copy>(&mut self, from: &[T]) -> T {
        from[self.below(from.len() as u64) as usize]
    }

    /// From -1 to 1.
    pub fn unit(&mut self) -> f64 {
        (self.next() >> 11) as f64 / (1u64 << 52) as f64 - 1.0
    }

    /// Any double, with the special ones often.
    pub fn double(&mut self) -> f64 {
        match self.below(8) {
            0 => f64::from_bits(self.next()),
            1 | 2 => f64::from_bits(self.pick(&SPECIAL)),
            3 => self.below(9) as f64 - 4.0,
            4 => self.unit(),
            5 => self.unit() * 1_048_576.0,
            6 => self.finite(),
            _ => self.below(2_097_153) as f64 - 1_048_576.0,
        }
    }

    /// A finite double, each exponent as likely as another.
    pub fn finite(&mut self) -> f64 {
        loop {
            let x = f64::from_bits(self.next());
            if x.is_finite() {
                return x;
            }
        }
    }
}

pub const SPECIAL: [u64; 42] = [
    0x0000_0000_0000_0000, // 0
    0x8000_0000_0000_0000, // -0
    0x0000_0000_0000_0001, // 2^-1074
    0x8000_0000_0000_0001,
    0x000F_FFFF_FFFF_FFFF, // the largest subnormal
    0x800F_FFFF_FFFF_FFFF,
    0x0010_0000_0000_0000, // 2^-1022
    0x8010_0000_0000_0000,
    0x1A70_0000_0000_0000, // 2^-600
    0x9A70_0000_0000_0000,
    0x1E60_0000_0000_0000, // 2^-537
    0x1E70_0000_0000_0000, // 2^-536
    0x3CA0_0000_0000_0000, // 2^-53
    0x3FD5_5555_5555_5555, // 1/3
    0x3FE5_5555_5555_5555, // 2/3
    0x3FDC_71C7_1C71_C71C, // 4/9
    0x3FE0_0000_0000_0000, // 1/2
    0xBFE0_0000_0000_0000,
    0x3FEF_FFFF_FFFF_FFFF, // below 1
    0x3FF0_0000_0000_0000, // 1
    0xBFF0_0000_0000_0000,
    0x3FF0_0000_0000_0001, // above 1
    0x3FF8_0000_0000_0000, // 3/2
    0x4000_0000_0000_0000, // 2
    0xC000_0000_0000_0000,
    0x4008_0000_0000_0000, // 3
    0xC008_0000_0000_0000,
    0x4130_0000_0000_0000, // 2^20
    0xC130_0000_0000_0000,
    0x4130_0000_0000_0001, // above 2^20
    0x4340_0000_0000_0000, // 2^53
    0x5FF0_0000_0000_0000, // 2^512
    0xDFF0_0000_0000_0000,
    0x5FEF_FFFF_FFFF_FFFF, // below 2^512
    0x7FEF_FFFF_FFFF_FFFF, // the largest
    0xFFEF_FFFF_FFFF_FFFF,
    0x7FF0_0000_0000_0000, // infinity
    0xFFF0_0000_0000_0000,
    0x7FF8_0000_0000_0000, // NaN
    0xFFF8_0000_0000_0001,
    0x7FF0_0000_0000_0001, // a signalling NaN
    0xFFFF_FFFF_FFFF_FFFF,
];

/// Whether two doubles are the same to a comparison: bit for bit, or both NaN.
pub fn same(a: f64, b: f64) -> bool {
    a.to_bits() == b.to_bits() || (a.is_nan() && b.is_nan())
}
