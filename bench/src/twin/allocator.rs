//! Allocators of granules.

use super::fault::{Denial, Fault, Layer};

pub(super) const BADNUM: Fault = Denial::BadNum.of(Layer::Allocator);
pub(super) const ALLOWANCE: Fault = Denial::Allowance.of(Layer::Allocator);
pub(super) const NORUN: Fault = Denial::NoRun.of(Layer::Allocator);
pub(super) const NOTWHOLE: Fault = Denial::NotWhole.of(Layer::Allocator);
pub(super) const SIZES: Fault = Denial::Sizes.of(Layer::Allocator);

/// A granule on an allocator's map.
#[derive(Clone, Copy, Debug, PartialEq, Eq)]
pub enum Cell {
    Free,
    First,
    Rest,
}

/// An allocator of runs of granules. Any numbers may be passed; denials are of the allocator's layer.
pub trait Allocator {
    /// The number of granules.
    fn granules(&self) -> usize;

    /// The number of granules that are not free.
    fn taken(&self) -> usize;

    /// The greatest number of granules that may be taken.
    fn allowance(&self) -> usize;

    fn mark(&self) -> usize;

    /// What the map has at a granule; free past the last.
    fn cell(&self, granule: usize) -> Cell;

    /// Takes a run of n granules and answers its base.
    fn allocate(&mut self, n: usize) -> Result<usize, Fault>;

    /// Frees the run that begins at a granule and answers its length.
    fn release(&mut self, base: usize) -> Result<usize, Fault>;

    /// The length of the run that begins at a granule, or 0.
    fn length_at(&self, base: usize) -> usize;

    /// The checks of an allocation that come before the placement.
    fn admit(&self, n: usize) -> Result<(), Fault> {
        if n == 0 {
            Err(BADNUM)
        } else if n > self.allowance().saturating_sub(self.taken()) {
            Err(ALLOWANCE)
        } else {
            Ok(())
        }
    }
}
