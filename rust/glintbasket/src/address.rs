//! The two kinds of address, and the rights of a mapping.

use std::fmt;
use std::ops::BitOr;

/// An address as the device sees it (IOVA). It lies below 2^48 where a call accepts it.
#[repr(transparent)]
#[derive(Clone, Copy, Debug, Default, PartialEq, Eq, PartialOrd, Ord, Hash)]
pub struct DeviceAddress(pub u64);

/// An address as a count of bytes from the start of memory.
#[repr(transparent)]
#[derive(Clone, Copy, Debug, Default, PartialEq, Eq, PartialOrd, Ord, Hash)]
pub struct MemoryAddress(pub u64);

/// What a device may do with a mapping's bytes: [`READ`](Rights::READ), [`WRITE`](Rights::WRITE) or both, joined by `|`.
///
/// Any number can be asked for; a map with another one is refused with [`Flags`](crate::Refusal::Flags).
#[repr(transparent)]
#[derive(Clone, Copy, Debug, Default, PartialEq, Eq, Hash)]
pub struct Rights(pub u32);

impl Rights {
    /// The device may read.
    pub const READ: Rights = Rights(1);
    /// The device may write.
    pub const WRITE: Rights = Rights(2);

    /// Whether all of `rights` are among these.
    #[inline]
    pub fn contains(self, rights: Rights) -> bool {
        self.0 & rights.0 == rights.0
    }
}

impl BitOr for Rights {
    type Output = Rights;

    fn bitor(self, other: Rights) -> Rights {
        Rights(self.0 | other.0)
    }
}

impl fmt::Display for DeviceAddress {
    fn fmt(&self, f: &mut fmt::Formatter<'_>) -> fmt::Result {
        write!(f, "{:#x}", self.0)
    }
}

impl fmt::Display for MemoryAddress {
    fn fmt(&self, f: &mut fmt::Formatter<'_>) -> fmt::Result {
        write!(f, "{:#x}", self.0)
    }
}
