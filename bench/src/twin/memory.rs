//! Tagged memories.

use super::authority::Capability;
use super::fault::Fault;

/// What a granule holds: its tag, and the numbers at the places of a capability's image.
#[derive(Clone, Copy, Debug, PartialEq, Eq)]
pub struct Granule {
    pub tagged: bool,
    pub base: u32,
    pub top: u32,
    pub permissions: u8,
}

impl Granule {
    /// The capability that it holds, if it is tagged.
    pub fn capability(self) -> Option<Capability> {
        if self.tagged {
            Capability::new(self.base, self.top, self.permissions.into())
        } else {
            None
        }
    }
}

/// A memory of granules, each with a tag. Any numbers may be passed; denials are of the memory's layer.
pub trait TaggedMemory {
    /// The number of granules.
    fn granules(&self) -> usize;

    fn load_byte(&self, address: usize) -> Result<u8, Fault>;

    fn load_granule(&self, granule: usize) -> Result<Granule, Fault>;

    /// Stores a byte and clears its granule's tag.
    fn store_byte(&mut self, address: usize, value: u8) -> Result<(), Fault>;

    /// Puts the image of a capability, given by three numbers, at a granule and sets its tag.
    fn store_capability(&mut self, granule: usize, base: u32, top: u32, permissions: u32) -> Result<(), Fault>;

    /// Clears a tag and leaves the bytes.
    fn untag(&mut self, granule: usize) -> Result<(), Fault>;

    /// Zeroes the bytes of n granules and clears their tags.
    fn wipe(&mut self, granule: usize, n: usize) -> Result<(), Fault>;

    /// Whether a granule may hold a capability: no only at an untagged one.
    fn may_hold(&self, granule: usize) -> Result<bool, Fault>;
}
