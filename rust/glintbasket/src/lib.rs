//! Glintbasket: a strict, verified emulator of the host side of VFIO, for people who write drivers for accelerator cards.
//!
//! A [`Bench`] plays the host. It answers VFIO requests, keeps the table of DMA mappings, moves bytes for the emulated device with a
//! mark for each byte that somebody wrote, and saves and loads the device's state as a stream of virtio device parts. A device that
//! fetches a byte which nobody wrote is refused, with the very offset of that byte.
//!
//! ```
//! use glintbasket::{marks_len, Bench, DeviceAddress, Error, MemoryAddress, Refusal, Rights};
//!
//! fn main() -> Result<(), Error> {
//!     // Two pages of memory, whose bytes nobody wrote, and a mark for each byte, eight to a byte.
//!     let mut memory = vec![0xa5; 8192];
//!     let mut marks = vec![0; marks_len(8192)];
//!     let mut bench = Bench::new(&mut memory, &mut marks)?;
//!
//!     // The driver shows the second page to the device, and puts a command of two bytes there.
//!     bench.map(MemoryAddress(4096), DeviceAddress(0x10000), 4096, Rights::READ)?;
//!     bench.host_write(MemoryAddress(4096), b"go")?;
//!
//!     // The device fetches it.
//!     let mut command = [0; 2];
//!     bench.device_read(DeviceAddress(0x10000), &mut command)?;
//!     assert_eq!(&command, b"go");
//!
//!     // It fetches a byte too many: refused, and the buffer is as it was.
//!     let mut long = [0; 3];
//!     let error = bench.device_read(DeviceAddress(0x10000), &mut long).unwrap_err();
//!     assert_eq!(error.refusal, Refusal::Unwritten);
//!     assert_eq!(error.place, 2);
//!     assert_eq!(error.to_string(), "refused 16 Unwritten at 2");
//!     assert_eq!(long, [0; 3]);
//!
//!     // The driver takes the page away.
//!     assert_eq!(bench.unmap(DeviceAddress(0x10000), 4096)?, 4096);
//!     Ok(())
//! }
//! ```
//!
//! A stream of parts is walked without copying:
//!
//! ```
//! use glintbasket::{kind, OwnedBench, Parts, SAVED_MAX};
//!
//! # fn main() -> Result<(), glintbasket::Error> {
//! let mut bench = OwnedBench::with_memory(vec![0; 4096])?;
//! bench.set_register(kind::DEVICE_STATUS, 0, &[0x0f])?;
//!
//! let mut buffer = [0; SAVED_MAX];
//! let length = bench.save_parts(&mut buffer)?;
//! let parts = Parts::new(&buffer[..length]).collect::<Result<Vec<_>, _>>()?;
//! assert_eq!(parts.len(), 2); // offered features and status are always saved
//! assert_eq!(u64::from(parts[1].kind), kind::DEVICE_STATUS);
//! assert_eq!(parts[1].value, [0x0f]);
//! # Ok(())
//! # }
//! ```
//!
//! # Records
//!
//! The table of mappings is a slice of records, as many as mappings can be held: 64 of the bench's own where nothing is said, up to
//! [`RECORDS_LIMIT`] of its own or lent by [`Bench::builder`].
//!
//! ```
//! use glintbasket::{Bench, DeviceAddress, Error, MemoryAddress, Refusal, Rights};
//!
//! fn main() -> Result<(), Error> {
//!     let mut bench = Bench::builder().record_count(1).own(vec![0; 4096])?;
//!     bench.map(MemoryAddress(0), DeviceAddress(0), 4096, Rights::READ)?;
//!     let full = bench.map(MemoryAddress(0), DeviceAddress(4096), 4096, Rights::READ);
//!     assert_eq!(full.unwrap_err().refusal, Refusal::NoRoom);
//!     Ok(())
//! }
//! ```
//!
//! # Older containers
//!
//! A container is of [`IommuType::Type1v2`] until the driver asks for [`IommuType::Type1`] by [`Bench::set_iommu`]. They differ in what
//! [`Bench::unmap`] removes.
//!
//! # Interrupts
//!
//! The device has 25 interrupt lines. [`Bench::set_irqs`] gives them event numbers, triggers, masks and unmasks them, and
//! [`Bench::show_line`] shows what each keeps: a driver's handler can be exercised.
//!
//! # Queues
//!
//! [`Bench::walk_queue`] goes through a split virtqueue as the device does: the driver's ring, and each head's chain of descriptors. A ring
//! that a driver got wrong is refused with the head, or with the very address of the byte that nobody wrote.
//!
//! # Device files
//!
//! [`DeviceFile`] reads the files by which a device once described itself, [`DeviceFileWriter`] writes them; the module [`device_file`] has
//! their records. They stand apart from a bench.
//!
//! # What remains for the caller
//!
//! Every state, number, length and order of calls has an answer. Three things no call can test, and in safe Rust the types see to them:
//!
//! 1. what is lent has as many bytes, records or numbers as its length says (a slice);
//! 2. records, memory, marks, the buffers or array of one call and the state do not overlap (`&mut`);
//! 3. they are used by one thread at a time (`&mut`).
//!
//! From C they are the caller's; `include/glintbasket.h` has the same list.
//!
//! # Linking
//!
//! The emulator is written in Rattle and proved; `make library` writes it as `libcapi.a` (x86-64 Linux). The build script looks for
//! it in the directory that the environment variable `GLINT_STATICLIB_DIR` names, or in the repository's `target/staticlib`.
//!
//! All `unsafe` code is in the module [`raw`], which declares the library's functions and gives each a safe form. A [`Bench`] stands on
//! it; a program that keeps the state itself can call it, too.

#![deny(unsafe_code)]
#![deny(missing_docs)]

mod address;
mod bench;
mod builder;
mod card;
mod check_save;
pub mod device_file;
mod error;
mod iommu_type;
mod irq;
mod lent;
mod parts;
mod queue;
#[allow(unsafe_code)]
pub mod raw;
mod requests;

pub use address::{DeviceAddress, MemoryAddress, Rights};
pub use bench::{marks_len, Bench, Location, OwnedBench, Target};
pub use builder::Builder;
pub use card::Card;
pub use check_save::{check_save, SaveCheck};
#[doc(inline)]
pub use device_file::{DeviceFile, DeviceFileWriter};
pub use error::{Error, LookUpError, Refusal, Result};
pub use iommu_type::IommuType;
pub use irq::{IrqAction, IrqData, IrqIndex, Line};
pub use parts::{Part, Parts, PART_HEADER};
pub use queue::{Buffer, Walk, Walked};
#[doc(inline)]
pub use raw::{Mapping, Register, Registers, State};
pub use requests::{number, DeviceInfo, IommuInfo, IrqInfo, RegionInfo};

/// The size of a page.
pub const PAGE_SIZE: u64 = 4096;
/// Device addresses lie below.
pub const DEVICE_LIMIT: u64 = 1 << 48;
/// Memory has at most so many bytes.
pub const MEMORY_LIMIT: usize = 1 << 30;
/// One transfer has at most so many bytes, and so has a stream.
pub const TRANSFER_LIMIT: usize = 65536;
/// At most so many records may be lent, and so mappings be held.
pub const RECORDS_LIMIT: usize = 4096;
/// How many records a bench has where nothing is said.
pub const DEFAULT_RECORDS: usize = 64;
/// A queue has at most so many descriptors.
pub const QUEUE_MAX: usize = 256;
/// A walk of a queue writes so many numbers for each buffer: address, length and flags.
pub const BUFFER_NUMBERS: usize = 3;
/// A walk of a queue never writes more numbers: as many heads as there are descriptors, and as many descriptors in each chain.
pub const WALKED_MAX: usize = BUFFER_NUMBERS * QUEUE_MAX * QUEUE_MAX;
/// Saving never writes more bytes, whatever the card (see [`Card::saved_max`]).
pub const SAVED_MAX: usize = Card::Features128.saved_max();

/// The types of registers and of parts.
pub mod kind {
    /// 8 bytes for each word of the card's features; read only.
    pub const OFFERED_FEATURES: u64 = 0x100;
    /// As many, of offered bits.
    pub const DRIVER_FEATURES: u64 = 0x101;
    /// Selectors 0 and 8 have 4 bytes, 16 and 22 have 2.
    pub const COMMON_FIELD: u64 = 0x102;
    /// 1 byte.
    pub const DEVICE_STATUS: u64 = 0x103;
    /// Selectors 0 to 3: 32 bytes, which are size, vector, enabled, reserved (2 each) and three addresses (8 each).
    pub const QUEUE_CONFIG: u64 = 0x104;
    /// Selectors 0 to 3: 8 bytes.
    pub const NOTIFY_CONFIG: u64 = 0x105;
}
