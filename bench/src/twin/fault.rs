//! Denials with their numbers, and the layers that deny.

/// Why a call is denied.
#[derive(Clone, Copy, Debug, PartialEq, Eq)]
#[repr(u8)]
pub enum Denial {
    BadNum = 1,
    Empty,
    Perm,
    Bounds,
    Align,
    NoCap,
    Revoked,
    NotWhole,
    Freed,
    QFull,
    Allowance,
    NoRun,
    Nothing,
    FullReg,
    Open,
    NoSweep,
    Idle,
    Text,
    Sizes,
}

/// The layer that denies, by its letter.
#[derive(Clone, Copy, Debug, PartialEq, Eq)]
#[repr(u8)]
pub enum Layer {
    Memory = b'T',
    Machine = b'M',
    Quarantine = b'Q',
    Allocator = b'A',
    Reader = b'R',
}

/// A denial with its layer.
#[derive(Clone, Copy, Debug, PartialEq, Eq)]
pub struct Fault {
    pub denial: Denial,
    pub layer: Layer,
}

impl Denial {
    pub const fn of(self, layer: Layer) -> Fault {
        Fault { denial: self, layer }
    }
}

impl Fault {
    pub fn code(self) -> u8 {
        self.denial as u8
    }

    pub fn letter(self) -> char {
        char::from(self.layer as u8)
    }
}
