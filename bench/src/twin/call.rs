//! The twelve calls, as values, as numbers and as text.

use std::fmt;

/// A call of a compartment or of the host. Operands are any numbers: the machine checks them.
#[derive(Clone, Copy, Debug, PartialEq, Eq)]
pub enum Call {
    Grant { compartment: u32, register: u32, granules: u32 },
    Free { compartment: u32, register: u32 },
    Derive { compartment: u32, register: u32, source: u32, offset: u32, length: u32, permissions: u32 },
    Getb { compartment: u32, register: u32, offset: u32 },
    Putb { compartment: u32, register: u32, offset: u32, value: u32 },
    Putc { compartment: u32, register: u32, offset: u32, source: u32 },
    Getc { compartment: u32, register: u32, offset: u32, target: u32 },
    Give { compartment: u32, register: u32, recipient: u32, target: u32 },
    Drop { compartment: u32, register: u32 },
    Open,
    Step { granules: u32 },
    Shut,
}

/// A call as numbers: the verb, from 0 in the order of `Call`, and six operands, those that it has not 0.
pub type Numbers = [u32; 7];

/// The names of the verbs, in the order of `Call`.
pub const NAMES: [&str; 12] =
    ["grant", "free", "derive", "getb", "putb", "putc", "getc", "give", "drop", "open", "step", "shut"];

/// The number of operands of each verb, in the order of `Call`.
pub const ARITIES: [usize; 12] = [3, 2, 6, 3, 4, 4, 4, 4, 2, 0, 1, 0];

/// The verb whose last operand is permissions.
pub const DERIVE: u32 = 2;

impl Call {
    pub fn numbers(self) -> Numbers {
        match self {
            Call::Grant { compartment, register, granules } => [0, compartment, register, granules, 0, 0, 0],
            Call::Free { compartment, register } => [1, compartment, register, 0, 0, 0, 0],
            Call::Derive { compartment, register, source, offset, length, permissions } => {
                [DERIVE, compartment, register, source, offset, length, permissions]
            }
            Call::Getb { compartment, register, offset } => [3, compartment, register, offset, 0, 0, 0],
            Call::Putb { compartment, register, offset, value } => [4, compartment, register, offset, value, 0, 0],
            Call::Putc { compartment, register, offset, source } => [5, compartment, register, offset, source, 0, 0],
            Call::Getc { compartment, register, offset, target } => [6, compartment, register, offset, target, 0, 0],
            Call::Give { compartment, register, recipient, target } => {
                [7, compartment, register, recipient, target, 0, 0]
            }
            Call::Drop { compartment, register } => [8, compartment, register, 0, 0, 0, 0],
            Call::Open => [9, 0, 0, 0, 0, 0, 0],
            Call::Step { granules } => [10, granules, 0, 0, 0, 0, 0],
            Call::Shut => [11, 0, 0, 0, 0, 0, 0],
        }
    }

    /// The call of its numbers, unless the verb's is above 11. Operands that the verb has not are passed over.
    pub fn from_numbers(numbers: Numbers) -> Option<Call> {
        let [verb, compartment, register, third, fourth, fifth, sixth] = numbers;
        Some(match verb {
            0 => Call::Grant { compartment, register, granules: third },
            1 => Call::Free { compartment, register },
            DERIVE => {
                Call::Derive { compartment, register, source: third, offset: fourth, length: fifth, permissions: sixth }
            }
            3 => Call::Getb { compartment, register, offset: third },
            4 => Call::Putb { compartment, register, offset: third, value: fourth },
            5 => Call::Putc { compartment, register, offset: third, source: fourth },
            6 => Call::Getc { compartment, register, offset: third, target: fourth },
            7 => Call::Give { compartment, register, recipient: third, target: fourth },
            8 => Call::Drop { compartment, register },
            9 => Call::Open,
            10 => Call::Step { granules: compartment },
            11 => Call::Shut,
            _ => return None,
        })
    }
}

/// The text of a call. Operands out of range are written as decimal numbers, which no line allows there.
impl fmt::Display for Call {
    fn fmt(&self, f: &mut fmt::Formatter<'_>) -> fmt::Result {
        let [verb, operands @ ..] = self.numbers();
        let arity = ARITIES[verb as usize];
        f.write_str(NAMES[verb as usize])?;
        for (index, &operand) in operands[..arity].iter().enumerate() {
            if verb == DERIVE && index == 5 && operand <= 31 {
                write!(f, " {}", Letters(operand))?;
            } else {
                write!(f, " {operand}")?;
            }
        }
        Ok(())
    }
}

/// The letters of a permission number.
struct Letters(u32);

impl fmt::Display for Letters {
    fn fmt(&self, f: &mut fmt::Formatter<'_>) -> fmt::Result {
        if self.0 == 0 {
            return f.write_str("-");
        }
        for (bit, letter) in "rwcgo".chars().enumerate() {
            if self.0 >> bit & 1 != 0 {
                write!(f, "{letter}")?;
            }
        }
        Ok(())
    }
}
