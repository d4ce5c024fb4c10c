//! Answers of the Rust encoders, immediates and operation tables, one line each.
//!
//!     encoders N SEED [LIMIT]  every encoder: all operands where there are at most LIMIT (65536)
//!                              of them, else the boundary operands and N random ones
//!     imms N SEED              every constructor of an immediate
//!     generate N SEED          generate_imm
//!     overlaps                 codes and overlap rules of the vector operations
//!     tables                   codes of the compressed operations
//!     sample SEED              a few lines for each encoder and operation
//!     sample-imms              the boundary lines of `imms`
//!     sample-generate SEED     the boundary lines of `generate` and 100 random ones
//!
//! Counts go to standard error.
#![allow(dead_code, unused_imports, unfulfilled_lint_expectations)]

// `regs.rs` names the register types by this crate's name
extern crate self as regalloc2;

mod driver;
mod isa;
mod standins;

pub use standins::registers::{PReg, RegClass, VReg};

pub mod machinst {
    pub use crate::standins::registers::{OperandVisitor, Reg, RegClass, Writable};

    pub mod isle {
        pub type WritableReg = super::Writable<super::Reg>;
    }
}

fn main() -> std::process::ExitCode {
    // an assert of the Rust that fails is an answer here
    std::panic::set_hook(Box::new(|_| {}));
    let args: Vec<String> = std::env::args().skip(1).collect();
    let words: Vec<&str> = args.iter().map(String::as_str).collect();
    match driver::run(&words) {
        Ok(()) => std::process::ExitCode::SUCCESS,
        Err(why) => {
            eprintln!("oracle: {why}");
            std::process::ExitCode::FAILURE
        }
    }
}
