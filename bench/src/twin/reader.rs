//! From script bytes to calls.

use super::call::Call;
use std::slice::Split;

/// The most bytes of a script.
pub const MOST_BYTES: usize = 32_768;

const MOST_NUMBER: u32 = 65_535;

/// What a line reads as: a call, or the number of the first word that is wrong, missing or too many.
pub type Reading = Result<Call, usize>;

/// The lines of a script that are not empty, with their numbers and what they read as; none if the script is too long.
pub fn read_script(script: &[u8]) -> Option<impl Iterator<Item = (usize, Reading)> + '_> {
    let lines = script.split(|&byte| byte == b'\n').zip(1..);
    (script.len() <= MOST_BYTES)
        .then(|| lines.filter(|(line, _)| !line.is_empty()).map(|(line, number)| (number, read_line(line))))
}

/// The call whose text a line is.
pub fn read_line(line: &[u8]) -> Reading {
    let mut words = Words { words: line.split(|byte| *byte == b' '), read: 0 };
    let verb = words.next()?;
    let call = match verb {
        b"grant" => Call::Grant { compartment: words.number()?, register: words.number()?, granules: words.number()? },
        b"free" => Call::Free { compartment: words.number()?, register: words.number()? },
        b"derive" => {
            let [compartment, register, source, offset, length] = words.numbers()?;
            Call::Derive { compartment, register, source, offset, length, permissions: words.permissions()? }
        }
        b"getb" => Call::Getb { compartment: words.number()?, register: words.number()?, offset: words.number()? },
        b"putb" => {
            let [compartment, register, offset, value] = words.numbers()?;
            Call::Putb { compartment, register, offset, value }
        }
        b"putc" => {
            let [compartment, register, offset, source] = words.numbers()?;
            Call::Putc { compartment, register, offset, source }
        }
        b"getc" => {
            let [compartment, register, offset, target] = words.numbers()?;
            Call::Getc { compartment, register, offset, target }
        }
        b"give" => {
            let [compartment, register, recipient, target] = words.numbers()?;
            Call::Give { compartment, register, recipient, target }
        }
        b"drop" => Call::Drop { compartment: words.number()?, register: words.number()? },
        b"open" => Call::Open,
        b"step" => Call::Step { granules: words.number()? },
        b"shut" => Call::Shut,
        _ => return Err(1),
    };
    words.end()?;
    Ok(call)
}

/// The words of a line, and how many of them were read.
struct Words<'a, P: FnMut(&u8) -> bool> {
    words: Split<'a, u8, P>,
    read: usize,
}

impl<'a, P: FnMut(&u8) -> bool> Words<'a, P> {
    fn next(&mut self) -> Result<&'a [u8], usize> {
        self.read += 1;
        self.words.next().ok_or(self.read)
    }

    fn number(&mut self) -> Result<u32, usize> {
        let word = self.next()?;
        read_number(word).ok_or(self.read)
    }

    fn numbers<const N: usize>(&mut self) -> Result<[u32; N], usize> {
        let mut numbers = [0; N];
        for number in &mut numbers {
            *number = self.number()?;
        }
        Ok(numbers)
    }

    fn permissions(&mut self) -> Result<u32, usize> {
        let word = self.next()?;
        read_permissions(word).ok_or(self.read)
    }

    fn end(mut self) -> Result<(), usize> {
        match self.words.next() {
            None => Ok(()),
            Some(_) => Err(self.read + 1),
        }
    }
}

/// A decimal number without leading zeros, at most 65,535.
fn read_number(word: &[u8]) -> Option<u32> {
    match word {
        b"0" => Some(0),
        [b'1'..=b'9', rest @ ..] if rest.len() < 5 => word
            .iter()
            .try_fold(0, |number, &byte| byte.is_ascii_digit().then(|| number * 10 + u32::from(byte - b'0')))
            .filter(|&number| number <= MOST_NUMBER),
        _ => None,
    }
}

/// The letters r, w, c, g, o, each at most once and in this order, or - for none.
fn read_permissions(word: &[u8]) -> Option<u32> {
    match word {
        b"" => None,
        b"-" => Some(0),
        _ => word.iter().try_fold(0, |permissions, letter| {
            let bit = 1 << b"rwcgo".iter().position(|known| known == letter)?;
            (bit > permissions).then_some(permissions | bit)
        }),
    }
}
