//! Flat memory: bytes and tag bits. It always says that a granule may hold a capability.

use super::authority::Capability;
use super::bits;
use super::fault::{Denial, Fault, Layer};
use super::memory::{Granule, TaggedMemory};
use super::{is_size, GRANULE};

const BOUNDS: Fault = Denial::Bounds.of(Layer::Memory);

/// Memory over 16 × G bytes and G/8 bytes of tags.
pub struct Flat<'a> {
    bytes: &'a mut [u8],
    tags: &'a mut [u8],
}

impl<'a> Flat<'a> {
    /// The number of granules that buffers of these sizes make.
    pub fn check(bytes: &[u8], tags: &[u8]) -> Result<usize, Fault> {
        let granules = bytes.len() / GRANULE;
        if is_size(granules) && bytes.len() == GRANULE * granules && tags.len() == granules / 8 {
            Ok(granules)
        } else {
            Err(Denial::Sizes.of(Layer::Memory))
        }
    }

    /// Zeroed memory; of no granules, with the buffers untouched, if their sizes do not fit.
    pub fn new(bytes: &'a mut [u8], tags: &'a mut [u8]) -> Flat<'a> {
        if Flat::check(bytes, tags).is_err() {
            return Flat::without_granules();
        }
        bytes.fill(0);
        tags.fill(0);
        Flat { bytes, tags }
    }

    pub(super) fn without_granules() -> Flat<'a> {
        Flat { bytes: &mut [], tags: &mut [] }
    }

    /// The tag of a granule.
    #[inline]
    pub fn tag(&self, granule: usize) -> Result<bool, Fault> {
        self.within(granule)?;
        Ok(bits::get(self.tags, granule))
    }

    #[inline]
    fn within(&self, granule: usize) -> Result<(), Fault> {
        if granule < self.granules() {
            Ok(())
        } else {
            Err(BOUNDS)
        }
    }
}

impl TaggedMemory for Flat<'_> {
    #[inline]
    fn granules(&self) -> usize {
        self.bytes.len() / GRANULE
    }

    #[inline]
    fn load_byte(&self, address: usize) -> Result<u8, Fault> {
        self.bytes.get(address).copied().ok_or(BOUNDS)
    }

    #[inline]
    fn load_granule(&self, granule: usize) -> Result<Granule, Fault> {
        self.within(granule)?;
        let image = &self.bytes[GRANULE * granule..][..GRANULE];
        Ok(Granule {
            tagged: bits::get(self.tags, granule),
            base: u32::from_le_bytes([image[0], image[1], image[2], image[3]]),
            top: u32::from_le_bytes([image[4], image[5], image[6], image[7]]),
            permissions: image[8],
        })
    }

    #[inline]
    fn store_byte(&mut self, address: usize, value: u8) -> Result<(), Fault> {
        *self.bytes.get_mut(address).ok_or(BOUNDS)? = value;
        bits::put(self.tags, address / GRANULE, false);
        Ok(())
    }

    fn store_capability(&mut self, granule: usize, base: u32, top: u32, permissions: u32) -> Result<(), Fault> {
        self.within(granule)?;
        let capability = Capability::new(base, top, permissions)
            .filter(|capability| capability.top() as usize <= self.bytes.len())
            .ok_or(Denial::BadNum.of(Layer::Memory))?;
        let image = &mut self.bytes[GRANULE * granule..][..GRANULE];
        image[..4].copy_from_slice(&capability.base().to_le_bytes());
        image[4..8].copy_from_slice(&capability.top().to_le_bytes());
        image[8] = capability.permissions().number();
        image[9..].fill(0);
        bits::put(self.tags, granule, true);
        Ok(())
    }

    #[inline]
    fn untag(&mut self, granule: usize) -> Result<(), Fault> {
        self.within(granule)?;
        bits::put(self.tags, granule, false);
        Ok(())
    }

    fn wipe(&mut self, granule: usize, n: usize) -> Result<(), Fault> {
        self.within(granule)?;
        if n > self.granules() - granule {
            return Err(BOUNDS);
        }
        self.bytes[GRANULE * granule..][..GRANULE * n].fill(0);
        bits::fill(self.tags, granule..granule + n, false);
        Ok(())
    }

    #[inline]
    fn may_hold(&self, granule: usize) -> Result<bool, Fault> {
        self.within(granule).map(|()| true)
    }
}
