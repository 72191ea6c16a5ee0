//! Paged memory: flat memory that counts the tags of each page. A granule may hold a capability if its page has a tag.

use super::fault::{Denial, Fault, Layer};
use super::flat::Flat;
use super::memory::{Granule, TaggedMemory};
use super::GRANULE;

/// Granules of a page.
const PAGE: usize = 16;

/// Memory over the buffers of flat memory and G/16 bytes of counts.
pub struct Paged<'a> {
    flat: Flat<'a>,
    counts: &'a mut [u8],
}

impl<'a> Paged<'a> {
    /// The number of granules that buffers of these sizes make.
    pub fn check(bytes: &[u8], tags: &[u8], counts: &[u8]) -> Result<usize, Fault> {
        let granules = Flat::check(bytes, tags)?;
        if counts.len() == granules / PAGE {
            Ok(granules)
        } else {
            Err(Denial::Sizes.of(Layer::Memory))
        }
    }

    /// Zeroed memory; of no granules, with the buffers untouched, if their sizes do not fit.
    pub fn new(bytes: &'a mut [u8], tags: &'a mut [u8], counts: &'a mut [u8]) -> Paged<'a> {
        if Paged::check(bytes, tags, counts).is_err() {
            return Paged { flat: Flat::without_granules(), counts: &mut [] };
        }
        counts.fill(0);
        Paged { flat: Flat::new(bytes, tags), counts }
    }

    /// Takes the tag of a granule, if it is set, out of its page's count.
    #[inline]
    fn uncount(&mut self, granule: usize) -> Result<(), Fault> {
        let tagged = self.flat.tag(granule)?;
        self.counts[granule / PAGE] -= u8::from(tagged);
        Ok(())
    }
}

impl TaggedMemory for Paged<'_> {
    #[inline]
    fn granules(&self) -> usize {
        self.flat.granules()
    }

    #[inline]
    fn load_byte(&self, address: usize) -> Result<u8, Fault> {
        self.flat.load_byte(address)
    }

    #[inline]
    fn load_granule(&self, granule: usize) -> Result<Granule, Fault> {
        self.flat.load_granule(granule)
    }

    #[inline]
    fn store_byte(&mut self, address: usize, value: u8) -> Result<(), Fault> {
        self.uncount(address / GRANULE)?;
        self.flat.store_byte(address, value)
    }

    fn store_capability(&mut self, granule: usize, base: u32, top: u32, permissions: u32) -> Result<(), Fault> {
        let tagged = self.flat.tag(granule)?;
        self.flat.store_capability(granule, base, top, permissions)?;
        self.counts[granule / PAGE] += u8::from(!tagged);
        Ok(())
    }

    #[inline]
    fn untag(&mut self, granule: usize) -> Result<(), Fault> {
        self.uncount(granule)?;
        self.flat.untag(granule)
    }

    fn wipe(&mut self, granule: usize, n: usize) -> Result<(), Fault> {
        if granule < self.granules() && n <= self.granules() - granule {
            for wiped in granule..granule + n {
                self.uncount(wiped)?;
            }
        }
        self.flat.wipe(granule, n)
    }

    #[inline]
    fn may_hold(&self, granule: usize) -> Result<bool, Fault> {
        match self.counts.get(granule / PAGE) {
            Some(&count) => Ok(count > 0),
            None => Err(Denial::Bounds.of(Layer::Memory)),
        }
    }
}
