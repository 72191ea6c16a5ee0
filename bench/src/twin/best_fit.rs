//! The free list, best fit.

use super::allocator::{Allocator, Cell, NORUN, NOTWHOLE, SIZES};
use super::fault::Fault;
use super::{bits, is_size};

/// An allocator over G two-byte numbers and G/8 bytes: which granules are taken.
///
/// The granules are cut into segments, each a run or a maximal free stretch. The number at a segment's first granule is its length. In a
/// run the other numbers are 0; in a free stretch the last number is the length too, and those between mean nothing.
pub struct BestFit<'a> {
    lengths: &'a mut [u16],
    used: &'a mut [u8],
    taken: usize,
}

impl<'a> BestFit<'a> {
    /// The number of granules that buffers of these sizes make.
    pub fn check(lengths: &[u16], used: &[u8]) -> Result<usize, Fault> {
        let granules = lengths.len();
        if is_size(granules) && used.len() == granules / 8 {
            Ok(granules)
        } else {
            Err(SIZES)
        }
    }

    /// All granules free; no granules, with the buffers untouched, if their sizes do not fit.
    pub fn new(lengths: &'a mut [u16], used: &'a mut [u8]) -> BestFit<'a> {
        let Ok(granules) = BestFit::check(lengths, used) else {
            return BestFit { lengths: &mut [], used: &mut [], taken: 0 };
        };
        lengths.fill(0);
        used.fill(0);
        let mut fresh = BestFit { lengths, used, taken: 0 };
        fresh.put_free(0, granules);
        fresh
    }

    /// Writes the numbers of a free stretch.
    fn put_free(&mut self, base: usize, n: usize) {
        self.lengths[base] = n as u16;
        self.lengths[base + n - 1] = n as u16;
    }

    /// The shortest free stretch of at least n granules, the lowest among equals.
    fn best(&self, n: usize) -> Option<(usize, usize)> {
        let mut best: Option<(usize, usize)> = None;
        let mut base = 0;
        while base < self.lengths.len() {
            let length = usize::from(self.lengths[base]);
            if length >= n && !bits::get(self.used, base) && best.is_none_or(|(_, least)| length < least) {
                best = Some((base, length));
                if length == n {
                    break;
                }
            }
            base += length;
        }
        best
    }

    /// The free stretch that ends before a granule, by its length.
    fn free_before(&self, granule: usize) -> usize {
        if granule > 0 && !bits::get(self.used, granule - 1) {
            self.lengths[granule - 1].into()
        } else {
            0
        }
    }

    /// The free stretch that begins at a granule, by its length.
    fn free_from(&self, granule: usize) -> usize {
        if granule < self.granules() && !bits::get(self.used, granule) {
            self.lengths[granule].into()
        } else {
            0
        }
    }
}

impl Allocator for BestFit<'_> {
    #[inline]
    fn granules(&self) -> usize {
        self.lengths.len()
    }

    #[inline]
    fn taken(&self) -> usize {
        self.taken
    }

    #[inline]
    fn allowance(&self) -> usize {
        self.granules()
    }

    fn mark(&self) -> usize {
        0
    }

    fn cell(&self, granule: usize) -> Cell {
        if granule >= self.granules() || !bits::get(self.used, granule) {
            Cell::Free
        } else if self.lengths[granule] > 0 {
            Cell::First
        } else {
            Cell::Rest
        }
    }

    fn allocate(&mut self, n: usize) -> Result<usize, Fault> {
        self.admit(n)?;
        let (base, length) = self.best(n).ok_or(NORUN)?;
        bits::fill(self.used, base..base + n, true);
        self.lengths[base] = n as u16;
        self.lengths[base + 1..base + n].fill(0);
        if length > n {
            self.put_free(base + n, length - n);
        }
        self.taken += n;
        Ok(base)
    }

    fn release(&mut self, base: usize) -> Result<usize, Fault> {
        let n = self.length_at(base);
        if n == 0 {
            return Err(NOTWHOLE);
        }
        bits::fill(self.used, base..base + n, false);
        let before = self.free_before(base);
        let after = self.free_from(base + n);
        self.put_free(base - before, before + n + after);
        self.taken -= n;
        Ok(n)
    }

    fn length_at(&self, base: usize) -> usize {
        if self.cell(base) == Cell::First {
            self.lengths[base].into()
        } else {
            0
        }
    }
}
