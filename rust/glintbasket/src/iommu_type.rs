//! The kinds of container.

use std::fmt;

/// The IOMMU type of a container, which says what an [unmap](crate::Bench::unmap) removes. A fresh start has [`Type1v2`], and
/// [`Bench::set_iommu`](crate::Bench::set_iommu) sets another.
///
/// [`Type1v2`]: IommuType::Type1v2
#[derive(Clone, Copy, Debug, Default, PartialEq, Eq, Hash)]
pub enum IommuType {
    /// Older containers, the kernel's `VFIO_TYPE1_IOMMU`: every mapping that begins in the range goes, whole, also where it ends beyond;
    /// none goes where one begins before the range and holds its start.
    Type1 = 1,
    /// The kernel's `VFIO_TYPE1v2_IOMMU`: every mapping inside the range goes, and a range that would cut one is refused.
    #[default]
    Type1v2 = 3,
}

impl IommuType {
    /// The kernel's number.
    pub const fn number(self) -> u32 {
        self as u32
    }

    /// The type with a number, if there is one.
    pub const fn from_number(number: u32) -> Option<IommuType> {
        match number {
            1 => Some(IommuType::Type1),
            3 => Some(IommuType::Type1v2),
            _ => None,
        }
    }
}

impl fmt::Display for IommuType {
    fn fmt(&self, f: &mut fmt::Formatter<'_>) -> fmt::Result {
        f.write_str(match self {
            IommuType::Type1 => "Type1",
            IommuType::Type1v2 => "Type1v2",
        })
    }
}
