//! Stand-ins for the enums that are generated from the instruction descriptions, and for what the
//! files taken whole name besides. The compiler checks the lists: a name that is missing is
//! unknown to the Rust's matches, and a name too many is not covered by them.
use super::registers::{OperandVisitor, Reg};
use crate::isa::riscv64::inst::UImm5;

macro_rules! enums {
    ($($name:ident { $($op:ident),* $(,)? })*) => {
        $(
            #[derive(Clone, Copy, Debug, PartialEq, Eq)]
            pub enum $name { $($op),* }

            impl $name {
                pub const ALL: &'static [$name] = &[$($name::$op),*];
                pub const NAMES: &'static [&'static str] = &[$(stringify!($op)),*];
            }
        )*
    };
}

enums! {
    VecAluOpRRR {
        VaddVV, VaddVX, VfaddVV, VfaddVF, VsubVV, VsubVX, VfsubVV, VfsubVF, VrsubVX, VmulVV, VmulVX,
        VmulhVV, VmulhVX, VmulhuVV, VmulhuVX, VfmulVV, VfmulVF, VsmulVV, VsmulVX, VsllVV, VsllVX, VsrlVV,
        VsrlVX, VsraVV, VsraVX, VandVV, VandVX, VorVV, VorVX, VxorVV, VxorVX, VminuVV, VminuVX, VredminuVS,
        VminVV, VminVX, VmaxuVV, VmaxuVX, VredmaxuVS, VmaxVV, VmaxVX, VslidedownVX, VfrsubVF, VmergeVVM,
        VmergeVXM, VfmergeVFM, VcompressVM, VfdivVV, VfdivVF, VsadduVV, VsadduVX, VfrdivVF, VsaddVV,
        VsaddVX, VfminVV, VfmaxVV, VssubuVV, VssubuVX, VssubVV, VssubVX, VfsgnjVV, VfsgnjVF, VfsgnjnVV,
        VfsgnjxVV, VrgatherVV, VrgatherVX, VwadduVV, VwadduVX, VwaddVV, VwaddVX, VwsubuVV, VwsubuVX,
        VwsubVV, VwsubVX, VwadduWV, VwadduWX, VwaddWV, VwaddWX, VwsubuWV, VwsubuWX, VwsubWV, VwsubWX,
        VmseqVV, VmseqVX, VmfeqVV, VmfeqVF, VmsneVV, VmsneVX, VmfleVV, VmfleVF, VmandMM, VmsltuVV,
        VmsltuVX, VmorMM, VmsltVV, VmsltVX, VmfltVV, VmfltVF, VmsleuVV, VmsleuVX, VmfneVV, VmfneVF,
        VmsleVV, VmsleVX, VmfgtVF, VmnandMM, VmsgtuVX, VmnorMM, VmsgtVX, VmfgeVF, VandnVV, VandnVX,
        VrorVV, VrorVX, VrolVV, VrolVX,
    }
    VecAluOpRRRR {
        VmaccVV, VmaccVX, VnmsacVV, VnmsacVX, VfmaccVV, VfmaccVF, VfnmaccVV, VfnmaccVF, VfmsacVV,
        VfmsacVF, VfnmsacVV, VfnmsacVF, Vslide1upVX,
    }
    VecAluOpRRImm5 {
        VaddVI, VrsubVI, VsllVI, VsrlVI, VsraVI, VandVI, VorVI, VxorVI, VslidedownVI, VssrlVI, VmergeVIM,
        VsadduVI, VsaddVI, VrgatherVI, VmvrV, VnclipWI, VnclipuWI, VmseqVI, VmsneVI, VmsleuVI, VmsleVI,
        VmsgtuVI, VmsgtVI, VrorVI,
    }
    VecAluOpRRRImm5 {
        VslideupVI,
    }
    VecAluOpRR {
        VmvSX, VmvXS, VfmvSF, VfmvFS, VzextVF2, VzextVF4, VzextVF8, VsextVF2, VsextVF4, VsextVF8, VfsqrtV,
        VmvVV, VmvVX, VfmvVF, VfcvtxufV, VfcvtxfV, VfcvtrtzxufV, VfcvtrtzxfV, VfcvtfxuV, VfcvtfxV,
        VfwcvtffV, VfncvtffW, VbrevV, Vbrev8V, Vrev8V, VclzV, VctzV, VcpopV,
    }
    VecAluOpRImm5 {
        VmvVI,
    }
    VecOpCategory {
        OPIVV, OPFVV, OPMVV, OPIVI, OPIVX, OPFVF, OPMVX, OPCFG,
    }
    VecElementWidth {
        E8, E16, E32, E64,
    }
    VecLmul {
        LmulF8, LmulF4, LmulF2, Lmul1, Lmul2, Lmul4, Lmul8,
    }
    VecTailMode {
        Agnostic, Undisturbed,
    }
    VecMaskMode {
        Agnostic, Undisturbed,
    }
    COpcodeSpace {
        C0, C1, C2,
    }
    CrOp {
        CMv, CJr, CAdd, CJalr, CEbreak,
    }
    CaOp {
        CAnd, COr, CXor, CSub, CAddw, CSubw, CMul,
    }
    CjOp {
        CJ,
    }
    CiOp {
        CAddi, CSlli, CAddiw, CFldsp, CLi, CLwsp, CAddi16sp, CLui, CLdsp,
    }
    CiwOp {
        CAddi4spn,
    }
    CbOp {
        CSrli, CSrai, CAndi,
    }
    CssOp {
        CFsdsp, CSwsp, CSdsp,
    }
    CsOp {
        CFsd, CSw, CSd,
    }
    ClOp {
        CFld, CLw, CLd,
    }
    CsznOp {
        CNot, CZextw, CZextb, CZexth, CSextb, CSexth,
    }
    ZcbMemOp {
        CLbu, CLhu, CLh, CSb, CSh,
    }
    CSR {
        Frm,
    }
    CsrRegOP {
        CsrRW, CsrRS, CsrRC,
    }
    CsrImmOP {
        CsrRWI, CsrRSI, CsrRCI,
    }
    FpuOPRR {
        Fsqrt, Fround, Fclass, FcvtWFmt, FcvtWuFmt, FcvtLFmt, FcvtLuFmt, FcvtFmtW, FcvtFmtWu, FcvtFmtL,
        FcvtFmtLu, FmvXFmt, FmvFmtX, FcvtSH, FcvtHS, FcvtSD, FcvtDS, FcvtDH, FcvtHD,
    }
    FpuOPRRR {
        Fadd, Fsub, Fmul, Fdiv, Fsgnj, Fsgnjn, Fsgnjx, Fmin, Fmax, Feq, Flt, Fle, Fminm, Fmaxm,
    }
    FpuOPRRRR {
        Fmadd, Fmsub, Fnmsub, Fnmadd,
    }
    FpuOPWidth {
        S, D, H, Q,
    }
    FRM {
        RNE, RTZ, RDN, RUP, RMM, Fcsr,
    }
}

/// The Rust makes this one `Copy` itself.
#[derive(Clone, Debug)]
pub enum VecOpMasking {
    Enabled { reg: Reg },
    Disabled,
}

/// The Rust makes this one `Copy` and comparable itself.
#[derive(Clone, Debug)]
pub enum VecAvl {
    Static { size: UImm5 },
}

pub enum VecAMode {
    UnitStride { base: AMode },
}

/// Only named by code that is never run here.
pub struct AMode;

impl AMode {
    pub fn get_operands(&mut self, _: &mut impl OperandVisitor) {
        unreachable!()
    }
}
