//! The codes of the operations.
use super::Output;
use crate::isa::riscv64::inst::*;
use std::io::{self, Write};

/// A line for each operation of the list: list, operation, then each code by its name.
macro_rules! codes {
    ($out:expr, $list:ident, $($code:ident),*) => {
        for op in $list::ALL {
            write!($out, "{},{:?},op,{}", stringify!($list), op, op.op().bits())?;
            $(write!($out, ",{},{}", stringify!($code), op.$code())?;)*
            writeln!($out)?;
        }
    };
}

pub fn tables(out: &mut Output) -> io::Result<()> {
    codes!(out, CrOp, funct4);
    codes!(out, CaOp, funct2, funct6);
    codes!(out, CjOp, funct3);
    codes!(out, CiOp, funct3);
    codes!(out, CiwOp, funct3);
    codes!(out, CbOp, funct2, funct3);
    codes!(out, CssOp, funct3);
    codes!(out, CsOp, funct3);
    codes!(out, ClOp, funct3);
    Ok(())
}

/// A line for each operation of the list: list, operation, opcode, funct3, funct6, category,
/// forbids_src_dst_overlaps, forbids_mask_dst_overlaps, and what `last` tells.
macro_rules! rules {
    ($out:expr, $list:ident, $last:expr) => {
        for op in $list::ALL {
            writeln!(
                $out,
                "{},{:?},{},{},{},{:?},{},{},{}",
                stringify!($list),
                op,
                op.opcode(),
                op.funct3(),
                op.funct6(),
                op.category(),
                op.forbids_src_dst_overlaps(),
                op.forbids_mask_dst_overlaps(),
                $last(op)
            )?;
        }
    };
}

pub fn overlaps(out: &mut Output) -> io::Result<()> {
    // of two registers the class of vs1, of a constant whether it is unsigned
    rules!(out, VecAluOpRRR, |op: &VecAluOpRRR| format!("{:?}", op.vs1_regclass()));
    rules!(out, VecAluOpRRRR, |op: &VecAluOpRRRR| format!("{:?}", op.vs1_regclass()));
    rules!(out, VecAluOpRRImm5, VecAluOpRRImm5::imm_is_unsigned);
    rules!(out, VecAluOpRRRImm5, VecAluOpRRRImm5::imm_is_unsigned);
    Ok(())
}
