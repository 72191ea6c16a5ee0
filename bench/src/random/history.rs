//! Random histories.

use super::{Random, EDGES};
use crate::twin::allocator::Allocator;
use crate::twin::authority::{Capability, Permissions};
use crate::twin::call::{Call, ARITIES};
use crate::twin::machine::{Machine, COMPARTMENTS, REGISTERS};
use crate::twin::memory::TaggedMemory;
use crate::twin::quarantine::Sweep;
use crate::twin::GRANULE;
use std::ops::Range;

/// A history in which most calls are accepted. Each call is chosen by the state of a machine, which then makes it.
pub fn deep<M: TaggedMemory, A: Allocator>(
    random: &mut Random,
    machine: &mut Machine<M, A>,
    length: usize,
) -> Vec<Call> {
    let mut habits = Habits::new(random);
    (0..length)
        .map(|_| {
            let call = Chooser { random, machine, habits: &mut habits }.choose();
            // Denied calls are part of the history too.
            let _ = machine.perform(call);
            call
        })
        .collect()
}

/// A history with calls left out, doubled, exchanged, and with operands and verbs replaced.
pub fn damaged(random: &mut Random, history: &[Call]) -> Vec<Call> {
    let mut calls = Vec::with_capacity(history.len());
    for &call in history {
        if !random.one_in(6) {
            calls.push(call);
            continue;
        }
        match random.below(8) {
            0 => (),
            1 => calls.extend([call, call]),
            2 => {
                let place = random.between(0, calls.len());
                calls.insert(place, call);
            }
            3 => calls.push(with_other_verb(random, call)),
            _ => calls.push(with_other_operand(random, call)),
        }
    }
    calls
}

fn with_other_verb(random: &mut Random, call: Call) -> Call {
    let mut numbers = call.numbers();
    numbers[0] = random.below(ARITIES.len()) as u32;
    Call::from_numbers(numbers).unwrap_or(call)
}

fn with_other_operand(random: &mut Random, call: Call) -> Call {
    let mut numbers = call.numbers();
    let arity = ARITIES[numbers[0] as usize];
    if arity > 0 {
        let index = random.between(1, arity);
        numbers[index] = if random.one_in(8) { random.number() as u32 } else { random.pick(&EDGES) };
    }
    Call::from_numbers(numbers).unwrap_or(call)
}

/// What differs from history to history.
struct Habits {
    /// The most granules of most grants.
    largest: usize,
    /// The waiting runs after which a sweep is opened.
    patience: usize,
    /// One in so many calls is any call.
    wild: usize,
}

impl Habits {
    fn new(random: &mut Random) -> Habits {
        Habits { largest: random.pick(&[1, 2, 3, 4, 8]), patience: patience(random), wild: random.pick(&[8, 20, 60]) }
    }
}

fn patience(random: &mut Random) -> usize {
    random.pick(&[1, 1, 2, 4, 8, 16, 64])
}

/// A register with the capability that it holds.
struct Held {
    compartment: u32,
    register: u32,
    capability: Capability,
}

/// Chooses the next call.
struct Chooser<'a, M, A> {
    random: &'a mut Random,
    machine: &'a Machine<M, A>,
    habits: &'a mut Habits,
}

fn place_of(slot: usize) -> (u32, u32) {
    ((slot / REGISTERS) as u32, (slot % REGISTERS) as u32)
}

/// The granules that lie whole within a capability.
fn granules_of(capability: Capability) -> Range<usize> {
    (capability.base() as usize).div_ceil(GRANULE)..capability.top() as usize / GRANULE
}

impl<M: TaggedMemory, A: Allocator> Chooser<'_, M, A> {
    fn choose(&mut self) -> Call {
        loop {
            let call = self.any_kind();
            if !self.loses_run(call) || self.random.one_in(200) {
                return call;
            }
        }
    }

    fn any_kind(&mut self) -> Call {
        if self.random.one_in(self.habits.wild) {
            return self.wild();
        }
        if let Some(call) = self.host_call() {
            return call;
        }
        let call = match self.random.below(100) {
            0..=17 => self.grant(),
            18..=28 => self.free(),
            29..=43 => self.derive(),
            44..=52 => self.getb(),
            53..=61 => self.putb(),
            62..=75 => self.putc(),
            76..=88 => self.getc(),
            89..=95 => self.give(),
            _ => self.drop_register(),
        };
        call.or_else(|| self.free()).unwrap_or_else(|| self.wild())
    }

    /// Any verb with small operands, each in range or a little above.
    fn wild(&mut self) -> Call {
        let verb = self.random.below(ARITIES.len());
        let mut numbers = [verb as u32, 0, 0, 0, 0, 0, 0];
        for number in &mut numbers[1..] {
            *number = if self.random.one_in(12) { self.random.pick(&EDGES) } else { self.random.below(8) as u32 };
        }
        Call::from_numbers(numbers).unwrap_or(Call::Shut)
    }

    /// Whether a call overwrites a register that owns a whole run, which could then never be freed.
    fn loses_run(&self, call: Call) -> bool {
        let written = match call {
            Call::Grant { compartment, register, .. }
            | Call::Derive { compartment, register, .. }
            | Call::Drop { compartment, register } => (compartment, register),
            Call::Getc { compartment, target, .. } => (compartment, target),
            _ => return false,
        };
        let (compartment, register) = (written.0 as usize, written.1 as usize);
        compartment < COMPARTMENTS && register < REGISTERS && self.owns_run(compartment * REGISTERS + register)
    }

    /// Whether a register holds a capability that may free its run, and the run does not wait.
    fn owns_run(&self, slot: usize) -> bool {
        self.machine.registers()[slot].is_some_and(|held| self.may_free(held))
    }

    fn may_free(&self, held: Capability) -> bool {
        let base = held.base_granule();
        held.permissions().have(Permissions::OWN)
            && held.base() as usize == GRANULE * base
            && held.size() as usize == GRANULE * self.machine.allocator().length_at(base)
            && self.machine.quarantine().waiting().iter().all(|run| run.base != base)
    }

    /// A register whose capability passes a test, if there is one.
    fn held(&mut self, test: impl Fn(&Self, Capability) -> bool) -> Option<Held> {
        let all = COMPARTMENTS * REGISTERS;
        let from = self.random.below(all);
        (from..from + all).map(|slot| slot % all).find_map(|slot| {
            let capability = self.machine.registers()[slot].filter(|&held| test(self, held))?;
            let (compartment, register) = place_of(slot);
            Some(Held { compartment, register, capability })
        })
    }

    fn held_with(&mut self, needed: Permissions, size: u32) -> Option<Held> {
        self.held(|_, held| held.permissions().have(needed) && held.size() >= size)
    }

    /// A register of a compartment that may be written, an empty one rather than another.
    fn spare(&mut self, compartment: u32) -> Option<u32> {
        let first = compartment as usize * REGISTERS;
        let from = self.random.below(REGISTERS);
        let places = || (from..from + REGISTERS).map(|register| register % REGISTERS);
        places()
            .find(|register| self.machine.registers()[first + register].is_none())
            .or_else(|| places().find(|register| !self.owns_run(first + register)))
            .map(|register| register as u32)
    }

    fn grant(&mut self) -> Option<Call> {
        let compartment = self.random.below(COMPARTMENTS) as u32;
        let register = self.spare(compartment)?;
        let most =
            if self.random.one_in(10) { self.machine.allocator().granules().max(1) } else { self.habits.largest };
        Some(Call::Grant { compartment, register, granules: self.random.between(1, most) as u32 })
    }

    fn free(&mut self) -> Option<Call> {
        let again = self.random.one_in(12);
        let Held { compartment, register, .. } =
            self.held(|chooser, held| again && held.permissions().have(Permissions::OWN) || chooser.may_free(held))?;
        Some(Call::Free { compartment, register })
    }

    fn derive(&mut self) -> Option<Call> {
        let Held { compartment, register: source, capability } = self.held(|_, _| true)?;
        let register = self.spare(compartment)?;
        let size = capability.size() as usize;
        let (offset, length) = match self.random.below(8) {
            0 | 1 => (0, size),
            2 => (self.random.below(size), self.random.pick(&EDGES) as usize),
            3 | 4 => (self.random.below(size), self.random.between(1, size)),
            _ => (GRANULE * self.random.below(size.div_ceil(GRANULE)), GRANULE * self.random.between(1, 4)),
        };
        let permissions = if self.random.one_in(2) { 31 } else { self.random.below(32) as u32 };
        let (offset, length) = (offset as u32, length as u32);
        Some(Call::Derive { compartment, register, source, offset, length, permissions })
    }

    fn getb(&mut self) -> Option<Call> {
        let Held { compartment, register, capability } = self.held_with(Permissions::LOAD, 1)?;
        Some(Call::Getb { compartment, register, offset: self.offset_in(capability) })
    }

    fn putb(&mut self) -> Option<Call> {
        let Held { compartment, register, capability } = self.held_with(Permissions::STORE, 1)?;
        let offset = self.offset_in(capability);
        Some(Call::Putb { compartment, register, offset, value: self.random.below(256) as u32 })
    }

    /// The offset of a byte within a capability; now and then the first one past it.
    fn offset_in(&mut self, capability: Capability) -> u32 {
        if self.random.one_in(20) {
            capability.size()
        } else {
            self.random.below(capability.size() as usize) as u32
        }
    }

    fn is_tagged(&self, granule: usize) -> bool {
        self.machine.memory().load_granule(granule).is_ok_and(|found| found.tagged)
    }

    /// The offset of a whole granule within a capability, of a tagged one if that is wanted.
    fn granule_in(&mut self, capability: Capability, tagged: bool) -> Option<u32> {
        let granules = granules_of(capability);
        if granules.is_empty() {
            return None;
        }
        let from = self.random.below(granules.len());
        (from..from + granules.len())
            .map(|index| granules.start + index % granules.len())
            .find(|&granule| !tagged || self.is_tagged(granule))
            .map(|granule| (GRANULE * granule) as u32 - capability.base())
    }

    fn putc(&mut self) -> Option<Call> {
        let needed = Permissions::STORE.with(Permissions::CAPABILITY);
        let Held { compartment, register, capability } = self.held_with(needed, GRANULE as u32)?;
        let offset = self.granule_in(capability, false)?;
        let first = compartment as usize * REGISTERS;
        let filled: Vec<usize> = (0..REGISTERS).filter(|r| self.machine.registers()[first + r].is_some()).collect();
        Some(Call::Putc { compartment, register, offset, source: self.random.pick(&filled) as u32 })
    }

    fn getc(&mut self) -> Option<Call> {
        let needed = Permissions::LOAD.with(Permissions::CAPABILITY);
        let tagged = !self.random.one_in(10);
        let Held { compartment, register, capability } = self.held(|chooser, held| {
            held.permissions().have(needed) && (!tagged || granules_of(held).any(|granule| chooser.is_tagged(granule)))
        })?;
        let offset = self.granule_in(capability, tagged)?;
        Some(Call::Getc { compartment, register, offset, target: self.spare(compartment)? })
    }

    fn give(&mut self) -> Option<Call> {
        let Held { compartment, register, .. } = self.held_with(Permissions::GIVE, 1)?;
        let recipient = self.random.below(COMPARTMENTS) as u32;
        Some(Call::Give { compartment, register, recipient, target: self.spare(recipient)? })
    }

    fn drop_register(&mut self) -> Option<Call> {
        let Held { compartment, register, .. } = self.held(|chooser, held| !chooser.may_free(held))?;
        Some(Call::Drop { compartment, register })
    }

    /// A call of the host, if it is time for one.
    fn host_call(&mut self) -> Option<Call> {
        let quarantine = self.machine.quarantine();
        match quarantine.sweep() {
            Sweep::Open { passed } => self.sweeping(self.machine.memory().granules() - passed),
            Sweep::Idle => {
                let allocator = self.machine.allocator();
                let waiting = quarantine.waiting().len();
                let scarce = 4 * allocator.taken() > 3 * allocator.allowance();
                let due = waiting >= self.habits.patience && self.random.one_in(3);
                let pressed = waiting > 0 && scarce && self.random.one_in(8);
                if !due && !pressed {
                    return None;
                }
                self.habits.patience = patience(self.random);
                Some(Call::Open)
            }
        }
    }

    /// A step of the open sweep, or its end.
    fn sweeping(&mut self, left: usize) -> Option<Call> {
        match self.random.below(40) {
            0 => Some(Call::Shut),
            1 => Some(Call::Step { granules: left as u32 }),
            2 => Some(Call::Step { granules: 65_535 }),
            3..=9 => Some(Call::Step { granules: self.random.between(1, left.div_ceil(2)) as u32 }),
            _ => None,
        }
    }
}
