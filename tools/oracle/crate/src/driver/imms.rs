//! Every constructor of an immediate. A line has the constructor, its argument, and `none`, or the
//! immediate's bits and its value; a u64 is written as signed.
use super::domain::Random;
use super::{Output, asked};
use crate::isa::riscv64::inst::{Imm5, Imm6, Imm12, Imm20, UImm5, Uimm5, Uimm6};
use std::io::{self, Write};

type Made = Option<(u64, String)>;

struct Constructor {
    name: &'static str,
    /// the bits of the argument's type, and whether it is signed
    width: u32,
    signed: bool,
    call: fn(i64) -> Made,
}

fn made12(imm: Option<Imm12>) -> Made {
    imm.map(|i| (i.bits().into(), i.as_i16().to_string()))
}

fn made20(imm: Option<Imm20>) -> Made {
    imm.map(|i| (i.bits().into(), i.as_i32().to_string()))
}

/// Those with no reader are read by what `Display` writes.
macro_rules! made {
    ($imm:expr) => {
        $imm.map(|i| (u64::from(i.bits()), i.to_string()))
    };
}

fn constructors() -> Vec<Constructor> {
    let of = |name, width, signed, call| Constructor { name, width, signed, call };
    vec![
        of("Imm12::maybe_from_u64", 64, true, |n| made12(Imm12::maybe_from_u64(n as u64))),
        of("Imm12::maybe_from_i64", 64, true, |n| made12(Imm12::maybe_from_i64(n))),
        of("Imm12::from_i16", 16, true, |n| made12(Some(Imm12::from_i16(n as i16)))),
        of("i64::from(Imm12)", 16, true, |n| {
            let imm = Imm12::from_i16(n as i16);
            Some((imm.bits().into(), i64::from(imm).to_string()))
        }),
        of("Imm20::maybe_from_u64", 64, true, |n| made20(Imm20::maybe_from_u64(n as u64))),
        of("Imm20::maybe_from_i64", 64, true, |n| made20(Imm20::maybe_from_i64(n))),
        of("Imm20::from_i32", 32, true, |n| made20(Some(Imm20::from_i32(n as i32)))),
        of("UImm5::maybe_from_u8", 8, false, |n| made!(UImm5::maybe_from_u8(n as u8))),
        of("Imm5::maybe_from_i8", 8, true, |n| made!(Imm5::maybe_from_i8(n as i8))),
        of("Imm5::from_bits", 8, false, |n| made!(Some(Imm5::from_bits(n as u8)))),
        of("Imm6::maybe_from_i16", 16, true, |n| made!(Imm6::maybe_from_i16(n as i16))),
        of("Imm6::maybe_from_i32", 32, true, |n| made!(Imm6::maybe_from_i32(n as i32))),
        of("Imm6::maybe_from_imm12", 12, true, |n| {
            made!(Imm6::maybe_from_imm12(Imm12::from_i16(n as i16)))
        }),
        of("Uimm6::maybe_from_u8", 8, false, |n| made!(Uimm6::maybe_from_u8(n as u8))),
        of("Uimm5::maybe_from_u8", 8, false, |n| made!(Uimm5::maybe_from_u8(n as u8))),
    ]
}

impl Constructor {
    fn least(&self) -> i64 {
        if self.signed { i64::MIN >> (64 - self.width) } else { 0 }
    }

    fn greatest(&self) -> i64 {
        if self.signed { i64::MAX >> (64 - self.width) } else { (1 << self.width) - 1 }
    }

    /// The ends of the argument's type and of every width, and those beside them.
    fn boundary(&self) -> Vec<i64> {
        let mut values = vec![0, self.least(), self.greatest()];
        for width in [2, 4, 5, 6, 8, 11, 12, 16, 19, 20, 31, 63] {
            let power = 1i128 << width;
            for middle in [power, -power] {
                values.extend([-1, 0, 1].iter().filter_map(|d| i64::try_from(middle + d).ok()));
            }
        }
        values.retain(|v| *v >= self.least() && *v <= self.greatest());
        values.sort();
        values.dedup();
        values
    }

    fn line(&self, out: &mut Output, counts: &mut [u64; 3], n: i64) -> io::Result<()> {
        match asked(|| (self.call)(n)) {
            Some(Some((bits, value))) => {
                counts[0] += 1;
                writeln!(out, "{},{n},{bits},{value}", self.name)
            }
            Some(None) => {
                counts[1] += 1;
                writeln!(out, "{},{n},none", self.name)
            }
            None => {
                counts[2] += 1;
                writeln!(out, "{},{n},panic", self.name)
            }
        }
    }

    fn all(&self, out: &mut Output, n: u64, random: &mut Random) -> io::Result<()> {
        let mut counts = [0; 3];
        if self.width <= 16 {
            for value in self.least()..=self.greatest() {
                self.line(out, &mut counts, value)?;
            }
        } else {
            for value in self.boundary() {
                self.line(out, &mut counts, value)?;
            }
            for k in 0..n {
                // of every size, half of them small enough for an answer
                let cut = if k % 2 == 0 { random.below(64) } else { 43 + random.below(21) };
                let value = (random.next() as i64) >> cut;
                let value = value << (64 - self.width) >> (64 - self.width);
                self.line(out, &mut counts, value)?;
            }
        }
        self.report(&counts);
        Ok(())
    }

    fn report(&self, counts: &[u64; 3]) {
        eprintln!("{},{} made,{} none,{} panics", self.name, counts[0], counts[1], counts[2]);
    }
}

pub fn all(out: &mut Output, n: u64, seed: u64) -> io::Result<()> {
    let mut random = Random::new(seed);
    constructors().iter().try_for_each(|c| c.all(out, n, &mut random))
}

pub fn sample(out: &mut Output) -> io::Result<()> {
    for constructor in constructors() {
        let mut counts = [0; 3];
        for value in constructor.boundary() {
            constructor.line(out, &mut counts, value)?;
        }
        constructor.report(&counts);
    }
    Ok(())
}
