//! The requests with typed arguments and answers, and their numbers.

use crate::address::{DeviceAddress, MemoryAddress, Rights};
use crate::bench::{Bench, Target};
use crate::error::Result;
use crate::iommu_type::IommuType;

/// The numbers of requests: the low byte of the kernel's `VFIO_*` request.
pub mod number {
    /// Container: the version of the interface.
    pub const GET_API_VERSION: u32 = 100;
    /// Container: whether an extension is there.
    pub const CHECK_EXTENSION: u32 = 101;
    /// Container: set its IOMMU type.
    pub const SET_IOMMU: u32 = 102;
    /// Container: what the IOMMU can do.
    pub const IOMMU_GET_INFO: u32 = 112;
    /// Container: map.
    pub const IOMMU_MAP_DMA: u32 = 113;
    /// Container: unmap.
    pub const IOMMU_UNMAP_DMA: u32 = 114;
    /// Device: how many regions and interrupts there are.
    pub const DEVICE_GET_INFO: u32 = 107;
    /// Device: one region.
    pub const DEVICE_GET_REGION_INFO: u32 = 108;
    /// Device: one interrupt index.
    pub const DEVICE_GET_IRQ_INFO: u32 = 109;
    /// Device: set up interrupt lines, and act on them.
    pub const DEVICE_SET_IRQS: u32 = 110;
    /// Device: reset.
    pub const DEVICE_RESET: u32 = 111;
}

/// What [`Bench::iommu_info`] gives.
#[derive(Clone, Copy, Debug, PartialEq, Eq, Hash)]
pub struct IommuInfo {
    /// 1: page sizes are given.
    pub flags: u32,
    /// A bitmap of page sizes.
    pub page_sizes: u64,
}

/// What [`Bench::device_info`] gives.
#[derive(Clone, Copy, Debug, PartialEq, Eq, Hash)]
pub struct DeviceInfo {
    /// 1: it can be reset; 2: it is a PCI device.
    pub flags: u32,
    /// How many regions there are.
    pub regions: u32,
    /// How many interrupt indices there are.
    pub irqs: u32,
}

/// What [`Bench::region_info`] gives.
#[derive(Clone, Copy, Debug, PartialEq, Eq, Hash)]
pub struct RegionInfo {
    /// 1: it can be read; 2: written; 4: mapped into a program.
    pub flags: u32,
    /// Its size.
    pub size: u64,
    /// Its offset from the start of the device's file.
    pub offset: u64,
}

/// What [`Bench::irq_info`] gives.
#[derive(Clone, Copy, Debug, PartialEq, Eq, Hash)]
pub struct IrqInfo {
    /// 1: by event; 2: maskable; 4: masked when it fires; 8: cannot be resized.
    pub flags: u32,
    /// How many interrupts the index has.
    pub count: u32,
}

impl Bench<'_> {
    /// The version of the interface, 0.
    pub fn api_version(&mut self) -> Result<u64> {
        self.request(Target::CONTAINER, number::GET_API_VERSION, &mut [])
    }

    /// Whether the container has an extension, by number. It has the numbers of [`IommuType`], 1 and 3, and no other.
    pub fn check_extension(&mut self, extension: u32) -> Result<bool> {
        let mut buffer = extension.to_le_bytes();
        let result = self.request(Target::CONTAINER, number::CHECK_EXTENSION, &mut buffer)?;
        Ok(result == 1)
    }

    /// Makes the container one of this IOMMU type, until the next fresh start; a [`reset`](Bench::reset) of the device keeps it.
    ///
    /// Refused: `BadBench`; `Flags` while a mapping is held, also with the type that the container is of.
    ///
    /// What an older driver does first, and what then becomes of its unmaps:
    ///
    /// ```
    /// use glintbasket::{DeviceAddress, Error, IommuType, MemoryAddress, OwnedBench, Refusal, Rights};
    ///
    /// fn main() -> Result<(), Error> {
    ///     let mut bench = OwnedBench::with_memory(vec![0; 8192])?;
    ///     assert!(bench.check_extension(IommuType::Type1.number())?);
    ///     bench.set_iommu(IommuType::Type1)?;
    ///     bench.map(MemoryAddress(0), DeviceAddress(0x10000), 8192, Rights::READ)?;
    ///
    ///     // The mapping begins before this range and holds its start: nothing goes.
    ///     assert_eq!(bench.unmap(DeviceAddress(0x11000), 4096)?, 0);
    ///     // It begins in this one: it goes whole, so more than was asked for.
    ///     assert_eq!(bench.unmap(DeviceAddress(0x10000), 4096)?, 8192);
    ///
    ///     // Type1v2 refuses to cut it.
    ///     bench.set_iommu(IommuType::Type1v2)?;
    ///     bench.map(MemoryAddress(0), DeviceAddress(0x10000), 8192, Rights::READ)?;
    ///     let cut = bench.unmap(DeviceAddress(0x10000), 4096).unwrap_err();
    ///     assert_eq!(cut.refusal, Refusal::Cuts);
    ///
    ///     // A mapping is held, so the type stays.
    ///     let held = bench.set_iommu(IommuType::Type1).unwrap_err();
    ///     assert_eq!(held.refusal, Refusal::Flags);
    ///     assert_eq!(bench.iommu_type(), Some(IommuType::Type1v2));
    ///     Ok(())
    /// }
    /// ```
    pub fn set_iommu(&mut self, iommu_type: IommuType) -> Result<()> {
        let mut buffer = iommu_type.number().to_le_bytes();
        self.request(Target::CONTAINER, number::SET_IOMMU, &mut buffer)?;
        Ok(())
    }

    /// What the IOMMU can do.
    pub fn iommu_info(&mut self) -> Result<IommuInfo> {
        let mut buffer = Buffer::<16>::new();
        self.request(Target::CONTAINER, number::IOMMU_GET_INFO, &mut buffer.0)?;
        Ok(IommuInfo {
            flags: buffer.u32(4),
            page_sizes: buffer.u64(8),
        })
    }

    /// Shows `size` bytes of memory from `memory` on at the device addresses from `device` on.
    ///
    /// Refused: `BadBench`, `Flags`, `Empty`, `Unaligned`, `Range`, `Overlap`, `NoRoom`.
    pub fn map(
        &mut self,
        memory: MemoryAddress,
        device: DeviceAddress,
        size: u64,
        rights: Rights,
    ) -> Result<()> {
        let mut buffer = Buffer::<32>::new()
            .with_u32(4, rights.0)
            .with_u64(8, memory.0)
            .with_u64(16, device.0)
            .with_u64(24, size);
        self.request(Target::CONTAINER, number::IOMMU_MAP_DMA, &mut buffer.0)?;
        Ok(())
    }

    /// Removes mappings, by the container's [`IommuType`]. Gives the sum of their sizes, which may be 0.
    ///
    /// - [`Type1v2`](IommuType::Type1v2): every one that lies wholly inside the range.
    /// - [`Type1`](IommuType::Type1): every one that begins in the range, whole, so that the sum may exceed `size`; none where one begins
    ///   before the range and holds its start.
    ///
    /// Refused: `BadBench`, `Empty`, `Unaligned`, `Range`, and for `Type1v2` alone `Cuts`.
    pub fn unmap(&mut self, device: DeviceAddress, size: u64) -> Result<u64> {
        let mut buffer = Buffer::<24>::new().with_u64(8, device.0).with_u64(16, size);
        self.request(Target::CONTAINER, number::IOMMU_UNMAP_DMA, &mut buffer.0)?;
        Ok(buffer.u64(16))
    }

    /// How many regions and interrupt indices the device has.
    pub fn device_info(&mut self) -> Result<DeviceInfo> {
        let mut buffer = Buffer::<16>::new();
        self.request(Target::DEVICE, number::DEVICE_GET_INFO, &mut buffer.0)?;
        Ok(DeviceInfo {
            flags: buffer.u32(4),
            regions: buffer.u32(8),
            irqs: buffer.u32(12),
        })
    }

    /// One of the device's regions.
    ///
    /// Refused: `BadBench`, `Index`.
    pub fn region_info(&mut self, index: u32) -> Result<RegionInfo> {
        let mut buffer = Buffer::<32>::new().with_u32(8, index);
        self.request(
            Target::DEVICE,
            number::DEVICE_GET_REGION_INFO,
            &mut buffer.0,
        )?;
        Ok(RegionInfo {
            flags: buffer.u32(4),
            size: buffer.u64(16),
            offset: buffer.u64(24),
        })
    }

    /// One of the device's interrupt indices.
    ///
    /// Refused: `BadBench`, `Index`.
    pub fn irq_info(&mut self, index: u32) -> Result<IrqInfo> {
        let mut buffer = Buffer::<16>::new().with_u32(8, index);
        self.request(Target::DEVICE, number::DEVICE_GET_IRQ_INFO, &mut buffer.0)?;
        Ok(IrqInfo {
            flags: buffer.u32(4),
            count: buffer.u32(12),
        })
    }

    /// Resets the device's registers: status is 0, all others are unset. All interrupt lines are disabled. It runs or stays stopped as
    /// before.
    pub fn reset(&mut self) -> Result<()> {
        self.request(Target::DEVICE, number::DEVICE_RESET, &mut [])?;
        Ok(())
    }
}

/// The bytes of a request of size `N`, whose first field is argsz.
struct Buffer<const N: usize>([u8; N]);

impl<const N: usize> Buffer<N> {
    /// Zeros, and argsz.
    fn new() -> Buffer<N> {
        Buffer([0; N]).with_u32(0, N as u32)
    }

    fn with_u32(mut self, at: usize, value: u32) -> Buffer<N> {
        self.0[at..at + 4].copy_from_slice(&value.to_le_bytes());
        self
    }

    fn with_u64(mut self, at: usize, value: u64) -> Buffer<N> {
        self.0[at..at + 8].copy_from_slice(&value.to_le_bytes());
        self
    }

    fn u32(&self, at: usize) -> u32 {
        u32::from_le_bytes(self.0[at..at + 4].try_into().expect("four bytes"))
    }

    fn u64(&self, at: usize) -> u64 {
        u64::from_le_bytes(self.0[at..at + 8].try_into().expect("eight bytes"))
    }
}
