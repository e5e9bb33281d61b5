//! The bench: records, memory, marks and state, and every call on them.

use crate::address::{DeviceAddress, MemoryAddress, Rights};
use crate::builder::Builder;
use crate::card::Card;
use crate::error::{LookUpError, Result};
use crate::iommu_type::IommuType;
use crate::lent::Lent;
use crate::raw::{self, Mapping, State};
use std::{fmt, result};

/// How many bytes the marks of so many bytes of memory take: eight marks to a byte.
///
/// ```
/// assert_eq!(glintbasket::marks_len(11), 2);
/// ```
pub const fn marks_len(memory_len: usize) -> usize {
    memory_len.div_ceil(8)
}

/// The target of a request.
///
/// Any number can be asked for; a request on another target than these two is refused with
/// [`NoSuchRequest`](crate::Refusal::NoSuchRequest).
#[derive(Clone, Copy, Debug, PartialEq, Eq, Hash)]
pub struct Target(pub u32);

impl Target {
    /// The container.
    pub const CONTAINER: Target = Target(0);
    /// The device.
    pub const DEVICE: Target = Target(1);
}

/// Where a device address lies: what [`Bench::look_up`] gives.
#[derive(Clone, Copy, Debug, PartialEq, Eq, Hash)]
pub struct Location {
    /// The memory address that it shows.
    pub address: MemoryAddress,
    /// The rights of the mapping that holds it.
    pub rights: Rights,
    /// How far that mapping runs on: the bytes from the device address to its end, at least 1. It ends there also where another adjoins.
    pub left: u64,
    /// How many mappings the search looked at: at most as many as the number held has binary digits, 13 for 4,096.
    pub probes: u64,
}

/// The host side of VFIO, with one device: memory with a mark for each byte that somebody wrote, a table of DMA mappings, and the
/// device's registers.
///
/// Every call answers exactly by the rules. A refused one changes nothing: no record, no byte of memory, marks or buffer, nor the state.
pub struct Bench<'m> {
    pub(crate) records: Lent<'m, Mapping>,
    pub(crate) memory: Lent<'m, u8>,
    pub(crate) marks: Lent<'m, u8>,
    pub(crate) state: State,
}

/// A [`Bench`] that owns its records, memory and marks.
pub type OwnedBench = Bench<'static>;

impl OwnedBench {
    /// A fresh start on memory that the bench then owns, with [`DEFAULT_RECORDS`](crate::DEFAULT_RECORDS) records. The bytes stay as they
    /// are, and none counts as written.
    ///
    /// Refused: `BadBench` for more than 2^30 bytes.
    pub fn with_memory(memory: Vec<u8>) -> Result<OwnedBench> {
        Bench::builder().own(memory)
    }

    /// The same of any card.
    pub fn with_memory_and_card(memory: Vec<u8>, card: Card) -> Result<OwnedBench> {
        Bench::builder().card(card).own(memory)
    }
}

impl<'m> Bench<'m> {
    /// A fresh start of the card with 64 feature bits, on lent memory and marks, with [`DEFAULT_RECORDS`](crate::DEFAULT_RECORDS) records
    /// of the bench's own. Memory bytes stay as they are; all marks become 0, and the bits past the last one stay.
    ///
    /// Refused: `BadBench` if the marks are not [`marks_len`] bytes, or memory exceeds 2^30.
    pub fn new(memory: &'m mut [u8], marks: &'m mut [u8]) -> Result<Bench<'m>> {
        Bench::builder().lend(memory, marks)
    }

    /// The same of any card.
    pub fn with_card(memory: &'m mut [u8], marks: &'m mut [u8], card: Card) -> Result<Bench<'m>> {
        Bench::builder().card(card).lend(memory, marks)
    }

    /// A bench with more or fewer records, with records that are lent, or of any card.
    pub fn builder() -> Builder<'m> {
        Builder::default()
    }

    /// A bench that goes on from a state. State and records may be any: calls refuse a state that is not sound, or that does not fit
    /// records and memory, with `BadBench`. The records need not be those of the calls before, as long as they begin with those in use.
    pub fn resume(
        state: State,
        records: &'m mut [Mapping],
        memory: &'m mut [u8],
        marks: &'m mut [u8],
    ) -> Bench<'m> {
        Bench {
            records: Lent::Borrowed(records),
            memory: Lent::Borrowed(memory),
            marks: Lent::Borrowed(marks),
            state,
        }
    }

    /// The memory.
    pub fn memory(&self) -> &[u8] {
        &self.memory
    }

    /// The memory, for whoever writes to it without a call. That changes no mark: an unwritten byte stays unwritten, and a written one
    /// has the new value for every later read.
    pub fn memory_mut(&mut self) -> &mut [u8] {
        &mut self.memory
    }

    /// Whether somebody wrote the byte at a memory address, by a call. No byte past the end of memory is written.
    pub fn is_written(&self, address: MemoryAddress) -> bool {
        let Ok(at) = usize::try_from(address.0) else {
            return false;
        };
        at < self.memory.len()
            && self
                .marks
                .get(at / 8)
                .is_some_and(|byte| byte >> (at % 8) & 1 == 1)
    }

    /// The marks as they are kept: bit i % 8 of byte i / 8 is 1 if byte i of memory is written. Bits past the end of memory mean nothing.
    pub fn marks(&self) -> &[u8] {
        &self.marks
    }

    /// The state as it is kept.
    pub fn state(&self) -> &State {
        &self.state
    }

    /// The records, as many as mappings can be held. Those behind [`mappings`](Bench::mappings) are stale.
    pub fn records(&self) -> &[Mapping] {
        &self.records
    }

    /// The mappings held, by rising device address: the records in use.
    pub fn mappings(&self) -> &[Mapping] {
        &self.records[..self.state.count.min(self.records.len())]
    }

    /// The bytes that are mapped: the sizes of the [`mappings`](Bench::mappings). They are the sizes of all maps that were
    /// accepted since the last fresh start, less those that unmaps reported. A sum that 64 bits do not hold, which only a
    /// state that is not sound can have, is the greatest number.
    pub fn mapped_bytes(&self) -> u64 {
        let sizes = self.mappings().iter().map(|mapping| mapping.size);
        sizes.fold(0, u64::saturating_add)
    }

    /// Whether the device runs.
    pub fn is_running(&self) -> bool {
        self.state.is_running()
    }

    /// Which card it is; none in a state that is not sound.
    pub fn card(&self) -> Option<Card> {
        self.state.card()
    }

    /// Of which IOMMU type the container is; none in a state that is not sound.
    pub fn iommu_type(&self) -> Option<IommuType> {
        IommuType::from_number(self.state.iommu_type)
    }

    /// Fresh start of the card with 64 feature bits: all marks 0, memory bytes and records untouched, no mapping, the container of
    /// [`IommuType::Type1v2`], the device stopped and reset, its interrupt lines disabled.
    ///
    /// Refused: `BadBench`.
    pub fn power_on(&mut self) -> Result<()> {
        self.power_on_as(Card::default())
    }

    /// A fresh start of any card.
    ///
    /// Refused: `BadBench`.
    pub fn power_on_as(&mut self, card: Card) -> Result<()> {
        raw::power_on(
            &mut self.state,
            &self.records,
            &self.memory,
            &mut self.marks,
            card,
        )
        .answer()
        .map(drop)
    }

    /// A request by target and number, with the bytes of its struct. Gives its result; output fields are written to `buffer`.
    ///
    /// Refused: `BadBench`, `NoSuchRequest`, `Short`, `ArgSize`, then as the request says.
    pub fn request(&mut self, target: Target, number: u32, buffer: &mut [u8]) -> Result<u64> {
        raw::request(
            &mut self.state,
            &mut self.records,
            &self.memory,
            &self.marks,
            target.0,
            number,
            buffer,
        )
        .answer()
    }

    /// Look-up: where a device address lies in memory, how far its mapping runs on from there, and how many mappings were looked at.
    ///
    /// Refused: `BadBench`, `Range`, `Unmapped`; with the last the error has the number of mappings looked at, too.
    ///
    /// A range of device addresses, run by run:
    ///
    /// ```
    /// use glintbasket::{DeviceAddress, Error, MemoryAddress, OwnedBench, Rights};
    ///
    /// fn main() -> Result<(), Error> {
    ///     let mut bench = OwnedBench::with_memory(vec![0; 3 * 4096])?;
    ///     bench.map(MemoryAddress(4096), DeviceAddress(0), 8192, Rights::READ)?;
    ///     bench.map(MemoryAddress(0), DeviceAddress(8192), 4096, Rights::READ)?;
    ///
    ///     let (mut device, end) = (4100, 10000);
    ///     let mut runs = Vec::new();
    ///     while device < end {
    ///         let location = bench.look_up(DeviceAddress(device))?;
    ///         let length = location.left.min(end - device);
    ///         runs.push((location.address.0, length));
    ///         device += length;
    ///     }
    ///     assert_eq!(runs, [(8196, 4092), (0, 1808)]);
    ///     Ok(())
    /// }
    /// ```
    ///
    /// What it costs, for a trace:
    ///
    /// ```
    /// use glintbasket::{DeviceAddress, Error, MemoryAddress, OwnedBench, Refusal, Rights};
    ///
    /// fn main() -> Result<(), Error> {
    ///     let mut bench = OwnedBench::with_memory(vec![0; 4096])?;
    ///     for device in [0x1000, 0x2000, 0x3000] {
    ///         bench.map(MemoryAddress(0), DeviceAddress(device), 4096, Rights::READ)?;
    ///     }
    ///     // The mapping in the middle is looked at first.
    ///     assert_eq!(bench.look_up(DeviceAddress(0x2000))?.probes, 1);
    ///     assert_eq!(bench.look_up(DeviceAddress(0x3000))?.probes, 2);
    ///
    ///     let error = bench.look_up(DeviceAddress(0x4000)).unwrap_err();
    ///     assert_eq!((error.refusal, error.probes), (Refusal::Unmapped, Some(2)));
    ///     assert_eq!(error.to_string(), "refused 14 Unmapped at 0 probes 2");
    ///     Ok(())
    /// }
    /// ```
    pub fn look_up(&self, device: DeviceAddress) -> result::Result<Location, LookUpError> {
        let found = raw::look_up(&self.state, &self.records, device);
        match found.outcome.answer() {
            Ok(_) => Ok(Location {
                address: found.address,
                rights: found.rights,
                left: found.left,
                probes: found.probes,
            }),
            Err(error) => Err(LookUpError::new(error, found.probes)),
        }
    }

    /// Card read: fills `buffer` from a device address on.
    ///
    /// Refused: `BadBench`, `TooLong`, `Range`, then for the first faulty offset `Unmapped`, `NoRight`, `Unwritten`.
    pub fn device_read(&self, device: DeviceAddress, buffer: &mut [u8]) -> Result<()> {
        raw::device_read(
            &self.state,
            &self.records,
            &self.memory,
            &self.marks,
            device,
            buffer,
        )
        .answer()
        .map(drop)
    }

    /// Card write: stores `bytes` from a device address on, in offset order, and marks them written.
    ///
    /// Refused: `BadBench`, `TooLong`, `Range`, then for the first faulty offset `Unmapped`, `NoRight`.
    pub fn device_write(&mut self, device: DeviceAddress, bytes: &[u8]) -> Result<()> {
        raw::device_write(
            &self.state,
            &self.records,
            &mut self.memory,
            &mut self.marks,
            device,
            bytes,
        )
        .answer()
        .map(drop)
    }

    /// Host store: stores `bytes` from a memory address on and marks them written.
    ///
    /// Refused: `BadBench`, `TooLong`, `Range`.
    pub fn host_write(&mut self, address: MemoryAddress, bytes: &[u8]) -> Result<()> {
        raw::host_write(
            &self.state,
            &self.records,
            &mut self.memory,
            &mut self.marks,
            address,
            bytes,
        )
        .answer()
        .map(drop)
    }

    /// Host load: fills `buffer` from a memory address on.
    ///
    /// Refused: `BadBench`, `TooLong`, `Range`, `Unwritten`.
    pub fn host_read(&self, address: MemoryAddress, buffer: &mut [u8]) -> Result<()> {
        raw::host_read(
            &self.state,
            &self.records,
            &self.memory,
            &self.marks,
            address,
            buffer,
        )
        .answer()
        .map(drop)
    }

    /// Forget: `length` bytes from a memory address on count as unwritten again. The bytes stay.
    ///
    /// Refused: `BadBench`, `Range`.
    pub fn invalidate(&mut self, address: MemoryAddress, length: u64) -> Result<()> {
        raw::invalidate(
            &self.state,
            &self.records,
            &self.memory,
            &mut self.marks,
            address,
            length,
        )
        .answer()
        .map(drop)
    }

    /// Sets the register of a type (see [`kind`](crate::kind)) and a selector number.
    ///
    /// Refused: `BadBench`, `UnknownPart`, `ReadOnly`, `Header`, `Index`, `Value`, `Mismatch`.
    pub fn set_register(&mut self, kind: u64, selector: u64, value: &[u8]) -> Result<()> {
        raw::set_register(&mut self.state, &self.records, kind, selector, value)
            .answer()
            .map(drop)
    }

    /// Reads a register: its value goes to the buffer's start. Gives the value's length.
    ///
    /// Refused: `BadBench`, `UnknownPart`, `Header`, `Index`, `Unset`, `NoSpace`.
    pub fn read_register(&self, kind: u64, selector: u64, buffer: &mut [u8]) -> Result<usize> {
        raw::read_register(&self.state, &self.records, kind, selector, buffer)
            .answer()
            .map(length)
    }

    /// Loads a stream of parts: registers named take their values, all others become unset.
    ///
    /// Refused: `BadBench`, `Running`, `TooLong`, then for the first faulty part `Truncated`, `Header`, `UnknownPart`, `Index`,
    /// `Value`, `Twice`, `Mismatch`, and at the end `Missing`.
    pub fn load_parts(&mut self, stream: &[u8]) -> Result<()> {
        raw::load_parts(&mut self.state, &self.records, stream)
            .answer()
            .map(drop)
    }

    /// Saves the set registers as a stream of parts at the buffer's start. Gives its length, 41 to [`SAVED_MAX`].
    ///
    /// Refused: `BadBench`, `Running`, `NoSpace`.
    ///
    /// [`SAVED_MAX`]: crate::SAVED_MAX
    pub fn save_parts(&self, buffer: &mut [u8]) -> Result<usize> {
        raw::save_parts(&self.state, &self.records, buffer)
            .answer()
            .map(length)
    }

    /// Stops the device, whether or not it runs.
    ///
    /// Refused: `BadBench`.
    pub fn stop(&mut self) -> Result<()> {
        raw::stop(&mut self.state, &self.records).answer().map(drop)
    }

    /// Starts the device, whether or not it runs.
    ///
    /// Refused: `BadBench`.
    pub fn start(&mut self) -> Result<()> {
        raw::start(&mut self.state, &self.records)
            .answer()
            .map(drop)
    }
}

/// A result that is a length within a buffer.
fn length(result: u64) -> usize {
    usize::try_from(result).expect("a length within a buffer")
}

impl fmt::Debug for Bench<'_> {
    fn fmt(&self, f: &mut fmt::Formatter<'_>) -> fmt::Result {
        f.debug_struct("Bench")
            .field("memory_length", &self.memory.len())
            .field("iommu_type", &self.iommu_type())
            .field("mappings", &self.mappings())
            .field("running", &self.state.is_running())
            .finish_non_exhaustive()
    }
}
