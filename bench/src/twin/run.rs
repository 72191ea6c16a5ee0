//! Running a script on the two machines, and what that prints.

use super::allocator::Allocator;
use super::best_fit::BestFit;
use super::fault::{Denial, Fault, Layer};
use super::flat::Flat;
use super::machine::Machine;
use super::memory::TaggedMemory;
use super::next_fit::NextFit;
use super::paged::Paged;
use super::quota::Quota;
use super::reader::read_script;
use super::GRANULE;
use std::io::{self, Write};

/// The granules of both machines.
pub const GRANULES: usize = 32;

/// The limit of machine B.
pub const LIMIT: usize = 24;

const TEXT: Fault = Denial::Text.of(Layer::Reader);

/// Runs a script on machine A, flat memory over best fit, then on B, paged memory under a quota over next fit.
pub fn run<W: Write>(script: &[u8], out: &mut W) -> io::Result<()> {
    let mut bytes = [0; GRANULE * GRANULES];
    let mut tags = [0; GRANULES / 8];
    let (mut lengths, mut used) = ([0; GRANULES], [0; GRANULES / 8]);
    let flat = Flat::new(&mut bytes, &mut tags);
    if !run_on(script, Machine::new(flat, BestFit::new(&mut lengths, &mut used)), 'A', out)? {
        return print(out, 0, Err(TEXT), 0);
    }
    let mut counts = [0; GRANULES / 16];
    let mut firsts = [0; GRANULES / 8];
    let paged = Paged::new(&mut bytes, &mut tags, &mut counts);
    let quota = Quota::new(NextFit::new(&mut used, &mut firsts), LIMIT);
    run_on(script, Machine::new(paged, quota), 'B', out)?;
    Ok(())
}

/// Runs a script on one machine and prints its part; prints nothing and answers false if the script is too long.
pub fn run_on<M: TaggedMemory, A: Allocator, W: Write>(
    script: &[u8],
    mut machine: Machine<M, A>,
    letter: char,
    out: &mut W,
) -> io::Result<bool> {
    let Some(lines) = read_script(script) else {
        return Ok(false);
    };
    writeln!(out, "{letter} {}", machine.memory().granules())?;
    for (number, reading) in lines {
        match reading {
            Ok(call) => print(out, number, machine.perform(call), 0)?,
            Err(word) => print(out, number, Err(TEXT), word)?,
        }
    }
    Ok(true)
}

/// Prints a line's number, code, layer and answer; on TEXT the word stands for the answer.
fn print<W: Write>(out: &mut W, line: usize, outcome: Result<u32, Fault>, word: usize) -> io::Result<()> {
    match outcome {
        Ok(answer) => writeln!(out, "{line} 0 - {answer}"),
        Err(fault) => writeln!(out, "{line} {} {} {word}", fault.code(), fault.letter()),
    }
}
