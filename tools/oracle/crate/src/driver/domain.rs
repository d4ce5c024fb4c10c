//! The values an operand may have.

/// Splitmix64.
pub struct Random(u64);

impl Random {
    pub fn new(seed: u64) -> Random {
        Random(seed)
    }

    pub fn next(&mut self) -> u64 {
        self.0 = self.0.wrapping_add(0x9e37_79b9_7f4a_7c15);
        let mut z = self.0;
        z = (z ^ (z >> 30)).wrapping_mul(0xbf58_476d_1ce4_e5b9);
        z = (z ^ (z >> 27)).wrapping_mul(0x94d0_49bb_1331_11eb);
        z ^ (z >> 31)
    }

    pub fn below(&mut self, n: u64) -> u64 {
        self.next() % n
    }
}

pub enum Operand {
    /// an operation, or any other case of an enum, by its place in the list
    Name(&'static [&'static str]),
    /// a register 0 to 31
    Reg,
    /// a register 8 to 15
    Short,
    /// a plain field of this many bits
    Field(u32),
    /// a constant of this many bits, signed or not
    Signed(u32),
    Unsigned(u32),
    /// 1 when masked
    Masked,
}

impl Operand {
    fn least(&self) -> i64 {
        match self {
            Operand::Short => 8,
            Operand::Signed(width) => -(1 << (width - 1)),
            _ => 0,
        }
    }

    pub fn count(&self) -> u64 {
        match self {
            Operand::Name(names) => names.len() as u64,
            Operand::Reg => 32,
            Operand::Short => 8,
            Operand::Field(width) | Operand::Signed(width) | Operand::Unsigned(width) => 1 << width,
            Operand::Masked => 2,
        }
    }

    pub fn nth(&self, k: u64) -> i64 {
        self.least() + k as i64
    }

    pub fn random(&self, random: &mut Random) -> i64 {
        self.nth(random.below(self.count()))
    }

    /// All values of a small operand; else the ends, those beside them, and every single bit.
    pub fn boundary(&self) -> Vec<i64> {
        let greatest = self.nth(self.count() - 1);
        let mut values = match self {
            Operand::Name(_) | Operand::Short | Operand::Masked => {
                return (0..self.count()).map(|k| self.nth(k)).collect();
            }
            Operand::Reg => vec![0, 1, 2, 4, 8, 15, 16, 30, 31],
            // some codes that are in use, and then the alternating ones
            Operand::Field(7) => vec![0, 1, 0x03, 0x07, 0x13, 0x20, 0x27, 0x33, 0x55, 0x57, 0x7e, 0x7f],
            Operand::Field(width) | Operand::Unsigned(width) => {
                let bits = (0..*width).map(|k| 1 << k);
                bits.chain([0, greatest - 1, greatest]).collect()
            }
            Operand::Signed(width) => {
                let bits = (0..*width).flat_map(|k| [1 << k, -(1 << k), (1 << k) - 1, -(1 << k) - 1]);
                bits.chain([0, greatest - 1]).collect()
            }
        };
        values.retain(|v| *v >= self.least() && *v <= greatest);
        values.sort();
        values.dedup();
        values
    }

    /// Values of a plain field that are too wide for it.
    pub fn too_wide(&self) -> Vec<i64> {
        match self {
            Operand::Field(width) => vec![1 << width, u32::MAX as i64],
            _ => vec![],
        }
    }

    pub fn read(&self, text: &str) -> i64 {
        match self {
            Operand::Name(names) => names.iter().position(|n| *n == text).unwrap() as i64,
            _ => text.parse().unwrap(),
        }
    }

    pub fn show(&self, value: i64) -> String {
        match self {
            Operand::Name(names) => names[value as usize].to_string(),
            _ => value.to_string(),
        }
    }
}
