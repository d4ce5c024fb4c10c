//! Stand-ins for registers: a register is a class and a number.

#[derive(Clone, Copy, Debug, PartialEq, Eq, PartialOrd, Ord, Hash)]
pub enum RegClass {
    Int,
    Float,
    Vector,
}

#[derive(Clone, Copy, Debug, PartialEq, Eq, PartialOrd, Ord, Hash)]
pub struct PReg {
    number: usize,
    class: RegClass,
}

impl PReg {
    pub const fn new(number: usize, class: RegClass) -> PReg {
        PReg { number, class }
    }

    pub const fn index(self) -> usize {
        self.number
    }

    pub const fn class(self) -> RegClass {
        self.class
    }
}

/// A virtual register; here it is always pinned to the machine register of its number.
#[derive(Clone, Copy, Debug, PartialEq, Eq, PartialOrd, Ord, Hash)]
pub struct VReg {
    number: usize,
    class: RegClass,
}

impl VReg {
    pub const fn new(number: usize, class: RegClass) -> VReg {
        VReg { number, class }
    }
}

#[derive(Clone, Copy, Debug, PartialEq, Eq, PartialOrd, Ord, Hash)]
pub struct Reg(VReg);

impl Reg {
    pub const fn from_virtual_reg(v: VReg) -> Reg {
        Reg(v)
    }

    pub fn to_real_reg(self) -> Option<RealReg> {
        Some(RealReg(self.0.number as u8))
    }

    pub fn class(self) -> RegClass {
        self.0.class
    }
}

impl From<VReg> for Reg {
    fn from(v: VReg) -> Reg {
        Reg(v)
    }
}

pub struct RealReg(u8);

impl RealReg {
    pub fn hw_enc(self) -> u8 {
        self.0
    }
}

#[derive(Clone, Copy, Debug, PartialEq, Eq, PartialOrd, Ord, Hash)]
pub struct Writable<T>(T);

impl<T: Copy> Writable<T> {
    pub const fn from_reg(reg: T) -> Writable<T> {
        Writable(reg)
    }

    pub fn to_reg(self) -> T {
        self.0
    }
}

/// Only named by code that is never run here.
pub trait OperandVisitor {}
