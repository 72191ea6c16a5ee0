//! A limit over any allocator, another quota too.

use super::allocator::{Allocator, Cell};
use super::fault::Fault;

pub struct Quota<A> {
    below: A,
    limit: usize,
}

impl<A: Allocator> Quota<A> {
    pub fn new(below: A, limit: usize) -> Quota<A> {
        Quota { below, limit }
    }
}

impl<A: Allocator> Allocator for Quota<A> {
    #[inline]
    fn granules(&self) -> usize {
        self.below.granules()
    }

    #[inline]
    fn taken(&self) -> usize {
        self.below.taken()
    }

    #[inline]
    fn allowance(&self) -> usize {
        self.limit.min(self.below.allowance())
    }

    fn mark(&self) -> usize {
        self.below.mark()
    }

    fn cell(&self, granule: usize) -> Cell {
        self.below.cell(granule)
    }

    fn allocate(&mut self, n: usize) -> Result<usize, Fault> {
        self.admit(n)?;
        self.below.allocate(n)
    }

    fn release(&mut self, base: usize) -> Result<usize, Fault> {
        self.below.release(base)
    }

    fn length_at(&self, base: usize) -> usize {
        self.below.length_at(base)
    }
}
