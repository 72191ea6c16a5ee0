//! Freed runs that wait or are painted, and the state of the sweep.

use super::authority::Capability;
use super::fault::{Denial, Fault, Layer};
use super::MOST_GRANULES;

/// The most runs that quarantine holds.
pub const MOST_RUNS: usize = 64;

/// A run of granules.
#[derive(Clone, Copy, Debug, Default, PartialEq, Eq)]
pub struct Run {
    pub base: usize,
    pub length: usize,
}

/// Whether a sweep is open, and the number of granules that it has passed.
#[derive(Clone, Copy, Debug, PartialEq, Eq)]
pub enum Sweep {
    Idle,
    Open { passed: usize },
}

/// Painted runs, then waiting runs, each in the order freed. Nothing is painted while the sweep is idle.
pub struct Quarantine {
    runs: [Run; MOST_RUNS],
    painted: usize,
    held: usize,
    shadow: [u64; MOST_GRANULES / 64],
    sweep: Sweep,
}

fn denied(denial: Denial) -> Fault {
    denial.of(Layer::Quarantine)
}

impl Quarantine {
    pub fn new() -> Quarantine {
        Quarantine {
            runs: [Run::default(); MOST_RUNS],
            painted: 0,
            held: 0,
            shadow: [0; MOST_GRANULES / 64],
            sweep: Sweep::Idle,
        }
    }

    pub fn sweep(&self) -> Sweep {
        self.sweep
    }

    pub fn painted(&self) -> &[Run] {
        &self.runs[..self.painted]
    }

    pub fn waiting(&self) -> &[Run] {
        &self.runs[self.painted..self.held]
    }

    /// Whether the base of a capability is painted.
    #[inline]
    pub fn is_stale(&self, capability: Capability) -> bool {
        let granule = capability.base_granule();
        self.shadow[granule / 64] >> (granule % 64) & 1 != 0
    }

    /// Lets a freed run wait.
    pub fn hold(&mut self, run: Run) -> Result<(), Fault> {
        if self.waiting().iter().any(|waiting| waiting.base == run.base) {
            return Err(denied(Denial::Freed));
        }
        let place = self.runs.get_mut(self.held).ok_or(denied(Denial::QFull))?;
        *place = run;
        self.held += 1;
        Ok(())
    }

    /// Opens a sweep: the waiting runs become painted. Answers their number.
    pub fn open(&mut self) -> Result<usize, Fault> {
        match self.sweep {
            Sweep::Open { .. } => Err(denied(Denial::Open)),
            Sweep::Idle if self.held == 0 => Err(denied(Denial::Idle)),
            Sweep::Idle => {
                self.painted = self.held;
                for run in &self.runs[..self.painted] {
                    for granule in run.base..run.base + run.length {
                        self.shadow[granule / 64] |= 1 << (granule % 64);
                    }
                }
                self.sweep = Sweep::Open { passed: 0 };
                Ok(self.painted)
            }
        }
    }

    /// The number of granules that the open sweep has passed.
    pub fn passed(&self) -> Result<usize, Fault> {
        match self.sweep {
            Sweep::Idle => Err(denied(Denial::NoSweep)),
            Sweep::Open { passed } => Ok(passed),
        }
    }

    /// Moves the open sweep on.
    pub fn pass_to(&mut self, passed: usize) {
        self.sweep = Sweep::Open { passed };
    }

    /// Forgets the painted runs and ends the sweep.
    pub fn finish(&mut self) {
        self.runs.copy_within(self.painted..self.held, 0);
        self.held -= self.painted;
        self.end();
    }

    /// Ends the open sweep; the painted runs wait again, before the others. Answers their number.
    pub fn shut(&mut self) -> Result<usize, Fault> {
        self.passed()?;
        let painted = self.painted;
        self.end();
        Ok(painted)
    }

    fn end(&mut self) {
        self.painted = 0;
        self.shadow.fill(0);
        self.sweep = Sweep::Idle;
    }
}

impl Default for Quarantine {
    fn default() -> Quarantine {
        Quarantine::new()
    }
}
