//! The bitmap allocator, next fit.

use super::allocator::{Allocator, Cell, NORUN, NOTWHOLE, SIZES};
use super::fault::Fault;
use super::{bits, is_size};

/// An allocator over two buffers of G/8 bytes: which granules are taken, and which of these are the first of their run.
pub struct NextFit<'a> {
    used: &'a mut [u8],
    firsts: &'a mut [u8],
    taken: usize,
    mark: usize,
}

impl<'a> NextFit<'a> {
    /// The number of granules that buffers of these sizes make.
    pub fn check(used: &[u8], firsts: &[u8]) -> Result<usize, Fault> {
        let granules = 8 * used.len();
        if is_size(granules) && firsts.len() == used.len() {
            Ok(granules)
        } else {
            Err(SIZES)
        }
    }

    /// All granules free; no granules, with the buffers untouched, if their sizes do not fit.
    pub fn new(used: &'a mut [u8], firsts: &'a mut [u8]) -> NextFit<'a> {
        if NextFit::check(used, firsts).is_err() {
            return NextFit { used: &mut [], firsts: &mut [], taken: 0, mark: 0 };
        }
        used.fill(0);
        firsts.fill(0);
        NextFit { used, firsts, taken: 0, mark: 0 }
    }

    /// The lowest granule from one on with n free granules in a row.
    fn lowest_from(&self, from: usize, n: usize) -> Option<usize> {
        let granules = self.granules();
        let mut base = from;
        let mut end = from;
        while base + n <= granules {
            if end == base + n {
                return Some(base);
            }
            let byte = self.used[end / 8] >> (end % 8);
            if byte & 1 != 0 {
                // behind the taken granules of this byte
                end += byte.trailing_ones() as usize;
                base = end;
            } else {
                end = (end + (byte.trailing_zeros() as usize).min(8 - end % 8)).min(base + n);
            }
        }
        None
    }

    /// The base of n free granules and the next mark.
    fn place(&self, n: usize) -> Option<(usize, usize)> {
        let base = self.lowest_from(self.mark, n).or_else(|| self.lowest_from(0, n))?;
        Some((base, base + n))
    }
}

impl Allocator for NextFit<'_> {
    #[inline]
    fn granules(&self) -> usize {
        8 * self.used.len()
    }

    #[inline]
    fn taken(&self) -> usize {
        self.taken
    }

    #[inline]
    fn allowance(&self) -> usize {
        self.granules()
    }

    fn mark(&self) -> usize {
        self.mark
    }

    fn cell(&self, granule: usize) -> Cell {
        if granule >= self.granules() || !bits::get(self.used, granule) {
            Cell::Free
        } else if bits::get(self.firsts, granule) {
            Cell::First
        } else {
            Cell::Rest
        }
    }

    fn allocate(&mut self, n: usize) -> Result<usize, Fault> {
        self.admit(n)?;
        let (base, mark) = self.place(n).ok_or(NORUN)?;
        bits::fill(self.used, base..base + n, true);
        bits::fill(self.firsts, base..base + n, false);
        bits::put(self.firsts, base, true);
        self.taken += n;
        self.mark = mark;
        Ok(base)
    }

    fn release(&mut self, base: usize) -> Result<usize, Fault> {
        let n = self.length_at(base);
        if n == 0 {
            return Err(NOTWHOLE);
        }
        bits::fill(self.used, base..base + n, false);
        self.taken -= n;
        Ok(n)
    }

    fn length_at(&self, base: usize) -> usize {
        if self.cell(base) != Cell::First {
            return 0;
        }
        1 + (base + 1..self.granules()).take_while(|&granule| self.cell(granule) == Cell::Rest).count()
    }
}
