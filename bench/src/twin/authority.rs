//! Authority as a meet-semilattice, and the capability.

use super::{GRANULE, MOST_GRANULES};

/// A kind of authority. The meet is associative, commutative and idempotent.
pub trait Meet: Copy + PartialEq {
    fn meet(self, other: Self) -> Self;

    fn lies_within(self, other: Self) -> bool {
        self.meet(other) == self
    }
}

/// The authority derived from a held and a wanted one.
pub fn derive<A: Meet>(held: A, wanted: A) -> A {
    held.meet(wanted)
}

/// Addresses from a base up to a top; the empty bounds are 0 to 0.
#[derive(Clone, Copy, Debug, PartialEq, Eq)]
pub struct Bounds {
    base: u32,
    top: u32,
}

impl Bounds {
    pub const EMPTY: Bounds = Bounds { base: 0, top: 0 };

    /// The bounds from base up to top, empty unless base < top.
    pub fn new(base: u32, top: u32) -> Bounds {
        if base < top {
            Bounds { base, top }
        } else {
            Bounds::EMPTY
        }
    }

    pub fn is_empty(self) -> bool {
        self == Bounds::EMPTY
    }

    pub fn base(self) -> u32 {
        self.base
    }

    pub fn top(self) -> u32 {
        self.top
    }
}

impl Meet for Bounds {
    fn meet(self, other: Bounds) -> Bounds {
        Bounds::new(self.base.max(other.base), self.top.min(other.top))
    }
}

/// A set of permissions.
#[derive(Clone, Copy, Debug, PartialEq, Eq)]
pub struct Permissions(u8);

impl Permissions {
    pub const NONE: Permissions = Permissions(0);
    pub const LOAD: Permissions = Permissions(1);
    pub const STORE: Permissions = Permissions(2);
    pub const CAPABILITY: Permissions = Permissions(4);
    pub const GIVE: Permissions = Permissions(8);
    pub const OWN: Permissions = Permissions(16);
    pub const ALL: Permissions = Permissions(31);

    /// The permissions of a number from 0 to 31.
    pub fn new(number: u32) -> Option<Permissions> {
        u8::try_from(number).ok().filter(|&bits| bits <= Permissions::ALL.0).map(Permissions)
    }

    pub fn number(self) -> u8 {
        self.0
    }

    /// These and others.
    pub const fn with(self, other: Permissions) -> Permissions {
        Permissions(self.0 | other.0)
    }

    /// Whether all of these are among them.
    pub fn have(self, needed: Permissions) -> bool {
        needed.lies_within(self)
    }
}

impl Meet for Permissions {
    fn meet(self, other: Permissions) -> Permissions {
        Permissions(self.0 & other.0)
    }
}

impl<A: Meet, B: Meet> Meet for (A, B) {
    fn meet(self, other: (A, B)) -> (A, B) {
        (self.0.meet(other.0), self.1.meet(other.1))
    }
}

/// A base below a top, at most 16,384, and permissions.
#[derive(Clone, Copy, Debug, PartialEq, Eq)]
pub struct Capability {
    bounds: Bounds,
    permissions: Permissions,
}

impl Capability {
    const MOST_TOP: u32 = (GRANULE * MOST_GRANULES) as u32;

    /// The capability of three numbers, if they are one.
    pub fn new(base: u32, top: u32, permissions: u32) -> Option<Capability> {
        Capability::of(Bounds::new(base, top), Permissions::new(permissions)?)
    }

    /// The capability of an authority, unless its bounds are empty or pass the largest memory.
    pub fn of(bounds: Bounds, permissions: Permissions) -> Option<Capability> {
        (!bounds.is_empty() && bounds.top <= Capability::MOST_TOP).then_some(Capability { bounds, permissions })
    }

    pub fn base(self) -> u32 {
        self.bounds.base
    }

    pub fn top(self) -> u32 {
        self.bounds.top
    }

    /// The number of its bytes.
    pub fn size(self) -> u32 {
        self.bounds.top - self.bounds.base
    }

    pub fn permissions(self) -> Permissions {
        self.permissions
    }

    pub fn authority(self) -> (Bounds, Permissions) {
        (self.bounds, self.permissions)
    }

    /// The granule of its base.
    pub fn base_granule(self) -> usize {
        self.bounds.base as usize / GRANULE
    }
}
