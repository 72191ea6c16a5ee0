//! The compartment machine over any memory and any allocator.

use super::allocator::Allocator;
use super::authority::{derive, Bounds, Capability, Permissions};
use super::call::Call;
use super::fault::{Denial, Fault, Layer};
use super::memory::TaggedMemory;
use super::quarantine::{Quarantine, Run};
use super::GRANULE;

/// Compartments, and registers of each.
pub const COMPARTMENTS: usize = 8;
pub const REGISTERS: usize = 8;

const MOST_OPERAND: u32 = 65_535;
const LOAD_CAPABILITY: Permissions = Permissions::LOAD.with(Permissions::CAPABILITY);
const STORE_CAPABILITY: Permissions = Permissions::STORE.with(Permissions::CAPABILITY);

pub struct Machine<M, A> {
    memory: M,
    allocator: A,
    registers: [Option<Capability>; COMPARTMENTS * REGISTERS],
    quarantine: Quarantine,
}

fn denied(denial: Denial) -> Fault {
    denial.of(Layer::Machine)
}

/// A memory's fault as the machine's own.
fn own(fault: Fault) -> Fault {
    denied(fault.denial)
}

fn check(holds: bool, denial: Denial) -> Result<(), Fault> {
    if holds {
        Ok(())
    } else {
        Err(denied(denial))
    }
}

/// The index of a register.
#[inline]
fn slot(compartment: u32, register: u32) -> Result<usize, Fault> {
    check(compartment < COMPARTMENTS as u32 && register < REGISTERS as u32, Denial::BadNum)?;
    Ok(compartment as usize * REGISTERS + register as usize)
}

#[inline]
fn operand(number: u32) -> Result<u32, Fault> {
    check(number <= MOST_OPERAND, Denial::BadNum)?;
    Ok(number)
}

/// A number of granules: an operand above 0.
#[inline]
fn count(number: u32) -> Result<usize, Fault> {
    check(number > 0, Denial::BadNum)?;
    Ok(operand(number)? as usize)
}

impl<M: TaggedMemory, A: Allocator> Machine<M, A> {
    /// A fresh machine over fresh parts.
    pub fn new(memory: M, allocator: A) -> Machine<M, A> {
        Machine { memory, allocator, registers: [None; COMPARTMENTS * REGISTERS], quarantine: Quarantine::new() }
    }

    pub fn memory(&self) -> &M {
        &self.memory
    }

    pub fn allocator(&self) -> &A {
        &self.allocator
    }

    pub fn quarantine(&self) -> &Quarantine {
        &self.quarantine
    }

    /// The registers, those of compartment 0 first.
    pub fn registers(&self) -> &[Option<Capability>; COMPARTMENTS * REGISTERS] {
        &self.registers
    }

    /// Makes a call: its answer, or its denial. A denied call changes nothing.
    pub fn perform(&mut self, call: Call) -> Result<u32, Fault> {
        match call {
            Call::Grant { compartment, register, granules } => self.grant(compartment, register, granules),
            Call::Free { compartment, register } => self.free(compartment, register),
            Call::Derive { compartment, register, source, offset, length, permissions } => {
                self.derive(compartment, register, source, offset, length, permissions)
            }
            Call::Getb { compartment, register, offset } => self.getb(compartment, register, offset),
            Call::Putb { compartment, register, offset, value } => self.putb(compartment, register, offset, value),
            Call::Putc { compartment, register, offset, source } => self.putc(compartment, register, offset, source),
            Call::Getc { compartment, register, offset, target } => self.getc(compartment, register, offset, target),
            Call::Give { compartment, register, recipient, target } => {
                self.give(compartment, register, recipient, target)
            }
            Call::Drop { compartment, register } => self.drop_register(compartment, register),
            Call::Open => self.open(),
            Call::Step { granules } => self.step(granules),
            Call::Shut => Ok(self.quarantine.shut()? as u32),
        }
    }

    fn held(&self, slot: usize) -> Result<Capability, Fault> {
        self.registers[slot].ok_or(denied(Denial::Empty))
    }

    fn grant(&mut self, compartment: u32, register: u32, granules: u32) -> Result<u32, Fault> {
        let target = slot(compartment, register)?;
        let granules = count(granules)?;
        check(self.memory.granules() == self.allocator.granules(), Denial::Sizes)?;
        let base = self.allocator.allocate(granules)?;
        let bounds = Bounds::new((GRANULE * base) as u32, (GRANULE * (base + granules)) as u32);
        self.registers[target] = Capability::of(bounds, Permissions::ALL);
        Ok(bounds.base())
    }

    fn free(&mut self, compartment: u32, register: u32) -> Result<u32, Fault> {
        let held = self.held(slot(compartment, register)?)?;
        check(held.permissions().have(Permissions::OWN), Denial::Perm)?;
        let base = held.base_granule();
        let length = self.allocator.length_at(base);
        let whole = held.base() as usize == GRANULE * base && held.size() as usize == GRANULE * length;
        check(whole, Denial::NotWhole)?;
        self.quarantine.hold(Run { base, length })?;
        Ok(held.base())
    }

    fn derive(
        &mut self,
        compartment: u32,
        register: u32,
        source: u32,
        offset: u32,
        length: u32,
        permissions: u32,
    ) -> Result<u32, Fault> {
        let target = slot(compartment, register)?;
        let source = slot(compartment, source)?;
        let (offset, length) = (operand(offset)?, operand(length)?);
        let permissions = Permissions::new(permissions).ok_or(denied(Denial::BadNum))?;
        let held = self.held(source)?;
        let from = held.base() + offset;
        let (bounds, permissions) = derive(held.authority(), (Bounds::new(from, from + length), permissions));
        let derived = Capability::of(bounds, permissions).ok_or(denied(Denial::Nothing))?;
        self.registers[target] = Some(derived);
        Ok(derived.size())
    }

    /// The address of a byte that a register's capability allows to access.
    fn byte_at(&self, slot: usize, needed: Permissions, offset: u32) -> Result<usize, Fault> {
        let held = self.held(slot)?;
        check(held.permissions().have(needed), Denial::Perm)?;
        check(offset < held.size(), Denial::Bounds)?;
        Ok((held.base() + offset) as usize)
    }

    /// The granule that a register's capability allows to access.
    fn granule_at(&self, slot: usize, needed: Permissions, offset: u32) -> Result<usize, Fault> {
        let held = self.held(slot)?;
        check(held.permissions().have(needed), Denial::Perm)?;
        check(offset + GRANULE as u32 <= held.size(), Denial::Bounds)?;
        let address = (held.base() + offset) as usize;
        check(address.is_multiple_of(GRANULE), Denial::Align)?;
        Ok(address / GRANULE)
    }

    fn getb(&mut self, compartment: u32, register: u32, offset: u32) -> Result<u32, Fault> {
        let slot = slot(compartment, register)?;
        let address = self.byte_at(slot, Permissions::LOAD, operand(offset)?)?;
        self.memory.load_byte(address).map(u32::from).map_err(own)
    }

    fn putb(&mut self, compartment: u32, register: u32, offset: u32, value: u32) -> Result<u32, Fault> {
        let slot = slot(compartment, register)?;
        let offset = operand(offset)?;
        let value = u8::try_from(value).map_err(|_| denied(Denial::BadNum))?;
        let address = self.byte_at(slot, Permissions::STORE, offset)?;
        self.memory.store_byte(address, value).map_err(own)?;
        Ok(0)
    }

    fn putc(&mut self, compartment: u32, register: u32, offset: u32, source: u32) -> Result<u32, Fault> {
        let target = slot(compartment, register)?;
        let source = slot(compartment, source)?;
        let offset = operand(offset)?;
        self.held(target)?;
        let stored = self.held(source)?;
        let granule = self.granule_at(target, STORE_CAPABILITY, offset)?;
        self.memory
            .store_capability(granule, stored.base(), stored.top(), stored.permissions().number().into())
            .map_err(own)?;
        Ok(0)
    }

    fn getc(&mut self, compartment: u32, register: u32, offset: u32, target: u32) -> Result<u32, Fault> {
        let source = slot(compartment, register)?;
        let target = slot(compartment, target)?;
        let granule = self.granule_at(source, LOAD_CAPABILITY, operand(offset)?)?;
        let granule = self.memory.load_granule(granule).map_err(own)?;
        let loaded = granule.capability().ok_or(denied(Denial::NoCap))?;
        if self.quarantine.is_stale(loaded) {
            return Err(Denial::Revoked.of(Layer::Quarantine));
        }
        self.registers[target] = Some(loaded);
        Ok(0)
    }

    fn give(&mut self, compartment: u32, register: u32, recipient: u32, target: u32) -> Result<u32, Fault> {
        let source = slot(compartment, register)?;
        let target = slot(recipient, target)?;
        let held = self.held(source)?;
        check(held.permissions().have(Permissions::GIVE), Denial::Perm)?;
        check(self.registers[target].is_none(), Denial::FullReg)?;
        self.registers[target] = Some(held);
        Ok(0)
    }

    fn drop_register(&mut self, compartment: u32, register: u32) -> Result<u32, Fault> {
        self.registers[slot(compartment, register)?] = None;
        Ok(0)
    }

    fn open(&mut self) -> Result<u32, Fault> {
        let painted = self.quarantine.open()?;
        for register in &mut self.registers {
            if register.is_some_and(|held| self.quarantine.is_stale(held)) {
                *register = None;
            }
        }
        Ok(painted as u32)
    }

    fn step(&mut self, granules: u32) -> Result<u32, Fault> {
        let granules = count(granules)?;
        let passed = self.quarantine.passed()?;
        let all = self.memory.granules();
        let end = all.min(passed + granules);
        self.untag_stale(passed, end).map_err(own)?;
        if end < all {
            self.quarantine.pass_to(end);
        } else {
            self.release_painted()?;
        }
        Ok((all - end) as u32)
    }

    /// Untags the granules from one up to another whose capabilities have painted bases.
    fn untag_stale(&mut self, from: usize, to: usize) -> Result<(), Fault> {
        for granule in from..to {
            if !self.memory.may_hold(granule)? {
                continue;
            }
            let held = self.memory.load_granule(granule)?.capability();
            if held.is_some_and(|held| self.quarantine.is_stale(held)) {
                self.memory.untag(granule)?;
            }
        }
        Ok(())
    }

    /// Wipes and releases the painted runs and ends the sweep.
    fn release_painted(&mut self) -> Result<(), Fault> {
        for run in self.quarantine.painted() {
            self.memory.wipe(run.base, run.length).map_err(own)?;
            self.allocator.release(run.base)?;
        }
        self.quarantine.finish();
        Ok(())
    }
}
