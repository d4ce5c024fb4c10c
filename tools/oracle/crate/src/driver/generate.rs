//! A constant split into a high and a low part.
use super::domain::Random;
use super::{Output, asked};
use crate::isa::riscv64::inst::Inst;
use std::io::{self, Write};

/// Values three to each side of those at which something may change.
fn boundary() -> Vec<i64> {
    let mut middles = vec![0, i64::MIN, i64::MAX, Inst::imm_min(), Inst::imm_max()];
    for step in [2048, 4096, 6144, 1 << 20, (1 << 31) - 4096, 1 << 31, (1 << 31) + 2048, 1 << 32] {
        middles.extend([step, -step]);
    }
    let mut values: Vec<i64> = middles
        .iter()
        .flat_map(|m| (-3..=3).filter_map(move |d: i64| m.checked_add(d)))
        .collect();
    values.sort();
    values.dedup();
    values
}

fn line(out: &mut Output, value: i64, counts: &mut [u64; 3]) -> io::Result<()> {
    match asked(|| Inst::generate_imm(value as u64)) {
        Some(Some((high, low))) => {
            counts[0] += 1;
            writeln!(out, "generate_imm,{value},{},{}", high.as_i32(), low.as_i16())
        }
        Some(None) => {
            counts[1] += 1;
            writeln!(out, "generate_imm,{value},none")
        }
        None => {
            counts[2] += 1;
            writeln!(out, "generate_imm,{value},panic")
        }
    }
}

pub fn all(out: &mut Output, n: u64, seed: u64) -> io::Result<()> {
    let mut random = Random::new(seed);
    let mut counts = [0; 3];
    for value in boundary() {
        line(out, value, &mut counts)?;
    }
    for k in 0..n {
        // of 64 bits, of 33, of 32, and of any number from 1 to 32
        let cut = [0, 31, 32, 32 + random.below(32)][k as usize % 4];
        line(out, (random.next() as i64) >> cut, &mut counts)?;
    }
    eprintln!("generate_imm,{} pairs,{} none,{} panics", counts[0], counts[1], counts[2]);
    Ok(())
}
