//! The module in which the files taken from the Rust stand.
pub mod args;
pub mod emit;
pub mod encode;
pub mod imms;
pub mod regs;
pub mod vector;

pub use crate::machinst::{Reg, Writable};
pub use crate::standins::generated::*;
pub use args::FliConstant;
pub(crate) use core::fmt::{Display, Formatter};
pub(crate) use emit::{reg_to_compressed_gpr_num, reg_to_gpr_num};
pub use imms::*;
pub use regs::*;
pub use vector::*;

/// `imms.rs` gives it the functions that split a constant.
pub struct Inst;

/// Only named by code that is never run here.
#[derive(Clone, Copy)]
pub struct Type;

impl Type {
    pub fn lane_bits(self) -> u32 {
        unreachable!()
    }

    pub fn lane_count(self) -> u32 {
        unreachable!()
    }
}
