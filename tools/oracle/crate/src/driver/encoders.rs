//! Every encoder, with the operands it takes in the order of its arguments.
use super::domain::Operand::{self, Field, Masked, Name, Reg as AnyReg, Short, Signed, Unsigned};
use super::domain::Random;
use super::{Output, asked};
use crate::isa::riscv64::inst::encode::*;
use crate::isa::riscv64::inst::*;
use crate::machinst::isle::WritableReg;
use crate::standins::registers::{PReg, RegClass, VReg};
use std::collections::HashSet;
use std::io::{self, Write};

enum Word {
    Wide(u32),
    Half(u16),
}
use Word::{Half, Wide};

impl Word {
    fn hex(self) -> String {
        match self {
            Wide(word) => format!("{word:08x}"),
            Half(word) => format!("{word:04x}"),
        }
    }
}

struct Encoder {
    name: &'static str,
    operands: Vec<Operand>,
    /// lines of the sample for each operation
    each: usize,
    call: fn(&[i64]) -> Word,
}

fn x(n: i64) -> Reg {
    x_reg(n as usize)
}

fn of(class: RegClass, n: i64) -> Reg {
    Reg::from(VReg::new(n as usize, class))
}

fn v(n: i64) -> Reg {
    let p = pv_reg(n as usize);
    of(p.class(), p.index() as i64)
}

fn w(r: Reg) -> WritableReg {
    WritableReg::from_reg(r)
}

fn masking(m: i64) -> VecOpMasking {
    if m == 1 {
        VecOpMasking::Enabled { reg: v(0) }
    } else {
        VecOpMasking::Disabled
    }
}

fn imm5(n: i64) -> Imm5 {
    Imm5::maybe_from_i8(n as i8).unwrap()
}

fn imm6(n: i64) -> Imm6 {
    Imm6::maybe_from_i16(n as i16).unwrap()
}

fn imm12(n: i64) -> Imm12 {
    Imm12::from_i16(n as i16)
}

fn uimm5(n: i64) -> Uimm5 {
    Uimm5::maybe_from_u8(n as u8).unwrap()
}

fn uimm6(n: i64) -> Uimm6 {
    Uimm6::maybe_from_u8(n as u8).unwrap()
}

fn wide() -> Vec<Encoder> {
    vec![
        Encoder {
            name: "encode_r_type",
            operands: vec![Field(7), AnyReg, Field(3), AnyReg, AnyReg, Field(7)],
            each: 80,
            call: |a| {
                let (opcode, funct3, funct7) = (a[0] as u32, a[2] as u32, a[5] as u32);
                Wide(encode_r_type(opcode, w(x(a[1])), funct3, x(a[3]), x(a[4]), funct7))
            },
        },
        Encoder {
            name: "encode_i_type",
            operands: vec![Field(7), AnyReg, Field(3), AnyReg, Signed(12)],
            each: 100,
            call: |a| {
                let (opcode, width) = (a[0] as u32, a[2] as u32);
                Wide(encode_i_type(opcode, w(x(a[1])), width, x(a[3]), imm12(a[4])))
            },
        },
        Encoder {
            name: "encode_s_type",
            operands: vec![Field(7), Field(3), AnyReg, AnyReg, Signed(12)],
            each: 100,
            call: |a| {
                let (opcode, width) = (a[0] as u32, a[1] as u32);
                Wide(encode_s_type(opcode, width, x(a[2]), x(a[3]), imm12(a[4])))
            },
        },
    ]
}

fn vector() -> Vec<Encoder> {
    vec![
        Encoder {
            name: "encode_valu",
            operands: vec![Name(VecAluOpRRR::NAMES), AnyReg, AnyReg, AnyReg, Masked],
            each: 5,
            call: |a| {
                let op = VecAluOpRRR::ALL[a[0] as usize];
                let vs1 = of(op.vs1_regclass(), a[2]);
                Wide(encode_valu(op, w(v(a[1])), vs1, v(a[3]), masking(a[4])))
            },
        },
        Encoder {
            name: "encode_valu_rr_imm",
            operands: vec![Name(VecAluOpRRImm5::NAMES), AnyReg, Signed(5), AnyReg, Masked],
            each: 9,
            call: |a| {
                let op = VecAluOpRRImm5::ALL[a[0] as usize];
                Wide(encode_valu_rr_imm(op, w(v(a[1])), imm5(a[2]), v(a[3]), masking(a[4])))
            },
        },
        Encoder {
            name: "encode_valu_rrrr",
            operands: vec![Name(VecAluOpRRRR::NAMES), AnyReg, AnyReg, AnyReg, Masked],
            each: 8,
            call: |a| {
                let op = VecAluOpRRRR::ALL[a[0] as usize];
                let vs1 = of(op.vs1_regclass(), a[3]);
                Wide(encode_valu_rrrr(op, w(v(a[1])), v(a[2]), vs1, masking(a[4])))
            },
        },
        Encoder {
            name: "encode_valu_rrr_imm",
            operands: vec![Name(VecAluOpRRRImm5::NAMES), AnyReg, Signed(5), AnyReg, Masked],
            each: 30,
            call: |a| {
                let op = VecAluOpRRRImm5::ALL[a[0] as usize];
                Wide(encode_valu_rrr_imm(op, w(v(a[1])), imm5(a[2]), v(a[3]), masking(a[4])))
            },
        },
        Encoder {
            name: "encode_vmem_load",
            operands: memory(),
            each: 80,
            call: |a| {
                let width = VecElementWidth::ALL[a[2] as usize];
                let (opcode, lumop, mop, nf) = (a[0] as u32, a[4] as u32, a[6] as u32, a[7] as u32);
                Wide(encode_vmem_load(opcode, v(a[1]), width, x(a[3]), lumop, masking(a[5]), mop, nf))
            },
        },
        Encoder {
            name: "encode_vmem_store",
            operands: memory(),
            each: 80,
            call: |a| {
                let width = VecElementWidth::ALL[a[2] as usize];
                let (opcode, sumop, mop, nf) = (a[0] as u32, a[4] as u32, a[6] as u32, a[7] as u32);
                Wide(encode_vmem_store(opcode, v(a[1]), width, x(a[3]), sumop, masking(a[5]), mop, nf))
            },
        },
    ]
}

fn memory() -> Vec<Operand> {
    let width = Name(VecElementWidth::NAMES);
    vec![Field(7), AnyReg, width, AnyReg, Field(5), Masked, Field(2), Field(3)]
}

fn short() -> Vec<Encoder> {
    vec![
        Encoder {
            name: "encode_cr_type",
            operands: vec![Name(CrOp::NAMES), AnyReg, AnyReg],
            each: 14,
            call: |a| Half(encode_cr_type(CrOp::ALL[a[0] as usize], w(x(a[1])), x(a[2]))),
        },
        Encoder {
            name: "encode_cr2_type",
            operands: vec![Name(CrOp::NAMES), AnyReg],
            each: 10,
            call: |a| Half(encode_cr2_type(CrOp::ALL[a[0] as usize], x(a[1]))),
        },
        Encoder {
            name: "encode_ca_type",
            operands: vec![Name(CaOp::NAMES), Short, Short],
            each: 12,
            call: |a| Half(encode_ca_type(CaOp::ALL[a[0] as usize], w(x(a[1])), x(a[2]))),
        },
        Encoder {
            name: "encode_cj_type",
            operands: vec![Name(CjOp::NAMES), Signed(12)],
            each: 200,
            call: |a| Half(encode_cj_type(CjOp::ALL[a[0] as usize], imm12(a[1]))),
        },
        Encoder {
            name: "encode_ci_type",
            operands: vec![Name(CiOp::NAMES), AnyReg, Signed(6)],
            each: 14,
            call: |a| Half(encode_ci_type(CiOp::ALL[a[0] as usize], w(x(a[1])), imm6(a[2]))),
        },
        Encoder {
            name: "encode_ci_sp_load",
            operands: vec![Name(CiOp::NAMES), AnyReg, Unsigned(6)],
            each: 16,
            call: |a| Half(encode_ci_sp_load(CiOp::ALL[a[0] as usize], w(x(a[1])), uimm6(a[2]))),
        },
        Encoder {
            name: "encode_c_addi16sp",
            operands: vec![Signed(6)],
            each: 64,
            call: |a| Half(encode_c_addi16sp(imm6(a[0]))),
        },
        Encoder {
            name: "encode_ciw_type",
            operands: vec![Name(CiwOp::NAMES), Short, Unsigned(8)],
            each: 48,
            call: |a| Half(encode_ciw_type(CiwOp::ALL[a[0] as usize], w(x(a[1])), a[2] as u8)),
        },
        Encoder {
            name: "encode_cb_type",
            operands: vec![Name(CbOp::NAMES), Short, Signed(6)],
            each: 24,
            call: |a| Half(encode_cb_type(CbOp::ALL[a[0] as usize], w(x(a[1])), imm6(a[2]))),
        },
        Encoder {
            name: "encode_css_type",
            operands: vec![Name(CssOp::NAMES), AnyReg, Unsigned(6)],
            each: 24,
            call: |a| Half(encode_css_type(CssOp::ALL[a[0] as usize], x(a[1]), uimm6(a[2]))),
        },
        Encoder {
            name: "encode_cs_type",
            operands: vec![Name(CsOp::NAMES), Short, Short, Unsigned(5)],
            each: 24,
            call: |a| {
                Half(encode_cs_type(CsOp::ALL[a[0] as usize], x(a[1]), x(a[2]), uimm5(a[3])))
            },
        },
        Encoder {
            name: "encode_cl_type",
            operands: vec![Name(ClOp::NAMES), Short, Short, Unsigned(5)],
            each: 24,
            call: |a| {
                Half(encode_cl_type(ClOp::ALL[a[0] as usize], w(x(a[1])), x(a[2]), uimm5(a[3])))
            },
        },
    ]
}

fn encoders() -> Vec<Encoder> {
    let mut list = wide();
    list.extend(vector());
    list.extend(short());
    list
}

/// Operands that the sample has besides, as its lines write them: words known from elsewhere, the
/// vector moves of whole registers, and memory accesses by unit stride.
fn fixed() -> Vec<String> {
    let mut lines: Vec<String> = [
        "encode_r_type,51,3,0,1,2,0",
        "encode_valu,VaddVV,1,3,2,0",
        "encode_cj_type,CJ,64",
        "encode_cj_type,CJ,-2",
        "encode_cr_type,CMv,10,11",
        "encode_ci_sp_load,CLwsp,1,16",
        "encode_vmem_load,7,8,E32,10,0,0,0,0",
    ]
    .map(String::from)
    .to_vec();
    for n in [0, 1, 3, 7] {
        lines.push(format!("encode_valu_rr_imm,VmvrV,8,{n},24,0"));
        lines.push(format!("encode_valu_rr_imm,VmvrV,16,{n},0,0"));
    }
    for (name, opcode) in [("encode_vmem_load", 7), ("encode_vmem_store", 39)] {
        for width in VecElementWidth::NAMES {
            lines.push(format!("{name},{opcode},1,{width},30,0,0,0,0"));
            lines.push(format!("{name},{opcode},16,{width},2,0,1,0,0"));
            lines.push(format!("{name},{opcode},31,{width},0,0,1,0,0"));
        }
    }
    lines
}

struct Count {
    lines: u64,
    panics: u64,
}

impl Encoder {
    fn line(&self, out: &mut Output, count: &mut Count, values: &[i64]) -> io::Result<()> {
        write!(out, "{}", self.name)?;
        for (operand, value) in self.operands.iter().zip(values) {
            write!(out, ",{}", operand.show(*value))?;
        }
        count.lines += 1;
        match asked(|| (self.call)(values)) {
            Some(word) => writeln!(out, ",{}", word.hex()),
            None => {
                count.panics += 1;
                writeln!(out, ",panic")
            }
        }
    }

    /// How many operands there are in all.
    fn space(&self) -> u64 {
        self.operands.iter().map(Operand::count).fold(1, u64::saturating_mul)
    }

    /// One line for each choice of a value from each list.
    fn product(&self, out: &mut Output, count: &mut Count, lists: &[Vec<i64>]) -> io::Result<()> {
        let total: usize = lists.iter().map(Vec::len).product();
        for k in 0..total {
            let mut rest = k;
            let values: Vec<i64> = lists
                .iter()
                .map(|list| {
                    let value = list[rest % list.len()];
                    rest /= list.len();
                    value
                })
                .collect();
            self.line(out, count, &values)?;
        }
        Ok(())
    }

    /// One line for each value too wide of each plain field, the others being 0.
    fn refused(&self, out: &mut Output, count: &mut Count) -> io::Result<()> {
        for (k, operand) in self.operands.iter().enumerate() {
            for value in operand.too_wide() {
                let mut values = vec![0; self.operands.len()];
                values[k] = value;
                self.line(out, count, &values)?;
            }
        }
        Ok(())
    }

    fn random(&self, out: &mut Output, count: &mut Count, random: &mut Random) -> io::Result<()> {
        let values: Vec<i64> = self.operands.iter().map(|o| o.random(random)).collect();
        self.line(out, count, &values)
    }

    fn all(&self, out: &mut Output, n: u64, random: &mut Random, limit: u64) -> io::Result<Count> {
        let mut count = Count { lines: 0, panics: 0 };
        let whole = self.space() <= limit;
        let lists: Vec<Vec<i64>> = self
            .operands
            .iter()
            .map(|o| if whole { (0..o.count()).map(|k| o.nth(k)).collect() } else { o.boundary() })
            .collect();
        self.product(out, &mut count, &lists)?;
        self.refused(out, &mut count)?;
        if !whole {
            for _ in 0..n {
                self.random(out, &mut count, random)?;
            }
        }
        eprintln!(
            "{},{},{} lines,{} panics",
            self.name,
            if whole { "exhaustive" } else { "boundary and random" },
            count.lines,
            count.panics
        );
        Ok(count)
    }

    /// The operations of the encoder, or one empty choice.
    fn operations(&self) -> Vec<Option<i64>> {
        match &self.operands[0] {
            Name(names) => (0..names.len() as i64).map(Some).collect(),
            _ => vec![None],
        }
    }

    /// Two thirds of the lines walk through the boundary values, each operand at its own pace; the
    /// others are random. Of those at which the Rust panics, three for each operation are kept.
    fn sampled(&self, out: &mut Output, random: &mut Random) -> io::Result<Count> {
        let mut count = Count { lines: 0, panics: 0 };
        if self.space() <= 64 {
            return self.all(out, 0, random, 64);
        }
        let lists: Vec<Vec<i64>> = self.operands.iter().map(Operand::boundary).collect();
        let mut seen = HashSet::new();
        for line in fixed() {
            let mut words = line.split(',');
            if words.next() == Some(self.name) {
                let values: Vec<i64> = self.operands.iter().zip(words).map(|(o, t)| o.read(t)).collect();
                self.line(out, &mut count, &values)?;
                seen.insert(values);
            }
        }
        for op in self.operations() {
            let shift = op.unwrap_or(0) as usize;
            let mut panics = 0;
            for k in 0..self.each {
                let mut values: Vec<i64> = if 3 * k < 2 * self.each {
                    let pick = |(i, list): (usize, &Vec<i64>)| {
                        // every second pass over a list moves it against the others
                        let turn = (k + shift) / list.len();
                        list[(k + (2 * i + 1) * shift + i * (turn + 3)) % list.len()]
                    };
                    lists.iter().enumerate().map(pick).collect()
                } else {
                    self.operands.iter().map(|o| o.random(random)).collect()
                };
                if let Some(op) = op {
                    values[0] = op;
                }
                if !seen.insert(values.clone()) {
                    continue;
                }
                if asked(|| (self.call)(&values)).is_none() {
                    panics += 1;
                    if panics > 3 {
                        continue;
                    }
                }
                self.line(out, &mut count, &values)?;
            }
        }
        self.refused(out, &mut count)?;
        eprintln!("{},{} lines,{} panics", self.name, count.lines, count.panics);
        Ok(count)
    }
}

pub fn all(out: &mut Output, n: u64, seed: u64, limit: u64) -> io::Result<()> {
    let mut total = Count { lines: 0, panics: 0 };
    for (k, encoder) in encoders().iter().enumerate() {
        let count = encoder.all(out, n, &mut Random::new(seed + k as u64), limit)?;
        total.lines += count.lines;
        total.panics += count.panics;
    }
    eprintln!("all,{} lines,{} panics", total.lines, total.panics);
    Ok(())
}

pub fn sample(out: &mut Output, seed: u64) -> io::Result<()> {
    let mut total = Count { lines: 0, panics: 0 };
    for (k, encoder) in encoders().iter().enumerate() {
        let count = encoder.sampled(out, &mut Random::new(seed + k as u64))?;
        total.lines += count.lines;
        total.panics += count.panics;
    }
    eprintln!("all,{} lines,{} panics", total.lines, total.panics);
    Ok(())
}
