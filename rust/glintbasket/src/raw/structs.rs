//! The structs as C lays them out.

use crate::address::{DeviceAddress, MemoryAddress, Rights};
use crate::{kind, Card};

/// A record of the mapping table: `size` bytes of memory from `memory` on, shown at the device addresses from `device` on.
///
/// The table is a slice of records that is lent to each call. The first of them, as many as [`State::count`], are in use, by rising device
/// address. The others are stale: no call looks at them, and a call changes one only where it puts it to use.
#[repr(C)]
#[derive(Clone, Copy, Debug, Default, PartialEq, Eq)]
pub struct Mapping {
    /// The first device address.
    pub device: DeviceAddress,
    /// The memory address that it shows.
    pub memory: MemoryAddress,
    /// How many bytes are shown.
    pub size: u64,
    /// What the device may do with them.
    pub rights: Rights,
}

/// How many registers are kept.
pub const REGISTERS: usize = 14;

/// Type, selector and size of each kept register, as they stand in [`Registers`], on the card with 64 feature bits; [`State::value_size`]
/// has the size on any.
pub const SLOTS: [(u64, u64, usize); REGISTERS] = [
    (kind::DRIVER_FEATURES, 0, 8),
    (kind::COMMON_FIELD, 0, 4),
    (kind::COMMON_FIELD, 8, 4),
    (kind::COMMON_FIELD, 16, 2),
    (kind::COMMON_FIELD, 22, 2),
    (kind::DEVICE_STATUS, 0, 1),
    (kind::QUEUE_CONFIG, 0, 32),
    (kind::QUEUE_CONFIG, 1, 32),
    (kind::QUEUE_CONFIG, 2, 32),
    (kind::QUEUE_CONFIG, 3, 32),
    (kind::NOTIFY_CONFIG, 0, 8),
    (kind::NOTIFY_CONFIG, 1, 8),
    (kind::NOTIFY_CONFIG, 2, 8),
    (kind::NOTIFY_CONFIG, 3, 8),
];

/// A register that is kept. Its value is as many of the first bytes as [`SLOTS`](crate::raw::SLOTS) says.
#[repr(C)]
#[derive(Clone, Copy, Debug, Default, PartialEq, Eq)]
pub struct Register {
    /// 1 if it is set. Every other value says that it is not, and then `bytes` means nothing.
    pub set: u8,
    /// The value, and behind it bytes that mean nothing.
    pub bytes: [u8; 32],
}

/// The registers that are kept.
#[repr(C)]
#[derive(Clone, Copy, Debug, Default, PartialEq, Eq)]
pub struct Registers {
    /// Driver features, four common fields, status, four queues, four notify values.
    pub slots: [Register; REGISTERS],
}

/// How many interrupt lines are kept.
pub const LINES: usize = 25;

/// An interrupt line that is kept.
#[repr(C)]
#[derive(Clone, Copy, Debug, Default, PartialEq, Eq)]
pub struct Line {
    /// The number of its event, or -1 for none. A number below makes the state unsound.
    pub number: i32,
    /// How many events it raised since its number was stored, modulo 2^32.
    pub tally: u32,
    /// 1 if it is masked. Every other value says that it is not.
    pub masked: u8,
    /// 1 if an event came while it was masked. Every other value says that none did.
    pub pending: u8,
}

/// What is kept between calls.
///
/// Any values may stand in it: a call refuses a state that is not sound with [`BadBench`](crate::Refusal::BadBench). The default is
/// zeros, which are not sound: a place for what a fresh start gives. `==` looks at every field, also at register bytes that mean nothing.
#[repr(C)]
#[derive(Clone, Copy, Debug, Default, PartialEq, Eq)]
pub struct State {
    /// The memory's length, noted at the last fresh start.
    pub memory_length: u64,
    /// How many of the lent records are in use.
    pub count: usize,
    /// The device's registers.
    pub registers: Registers,
    /// 1 if the device runs. Every other value says that it does not.
    pub running: u8,
    /// Which card it is: how many 64-bit words of features it has, 1 or 2 (see [`Card`](crate::Card)). Every other value makes the state
    /// unsound.
    pub words: u8,
    /// The number of the container's [`IommuType`](crate::IommuType), 1 or 3. Every other value makes the state unsound.
    pub iommu_type: u32,
    /// The interrupt lines: that of index 0, the eight of 1, the sixteen of 2.
    pub lines: [Line; LINES],
}

/// An answer: a result, or a refusal's number and place.
#[repr(C)]
#[derive(Clone, Copy, Debug, PartialEq, Eq)]
pub struct Outcome {
    /// Whether the call was refused.
    pub refused: bool,
    /// The refusal's number (see [`Refusal`](crate::Refusal)).
    pub code: u32,
    /// The refusal's place.
    pub place: u64,
    /// The result.
    pub result: u64,
}

/// Look-up's answer. Where it is refused, all else is 0, but for the probes of an [`Unmapped`](crate::Refusal::Unmapped) address.
#[repr(C)]
#[derive(Clone, Copy, Debug, PartialEq, Eq)]
pub struct Found {
    /// The answer but for what was found.
    pub outcome: Outcome,
    /// The memory address.
    pub address: MemoryAddress,
    /// The rights of the mapping that holds the device address.
    pub rights: Rights,
    /// The bytes from the device address to the end of that mapping.
    pub left: u64,
    /// How many mappings the search looked at.
    pub probes: u64,
}

/// The answer of showing a line. Where it is refused, all else is 0.
#[repr(C)]
#[derive(Clone, Copy, Debug, PartialEq, Eq)]
pub struct ShownLine {
    /// The answer but for what the line keeps.
    pub outcome: Outcome,
    /// The number of its event, or -1 for none.
    pub number: i32,
    /// How many events it raised.
    pub tally: u32,
    /// Whether it is masked.
    pub masked: bool,
    /// Whether an event came while it was masked.
    pub pending: bool,
}

/// The answer of a walk of a queue. Where it is refused, the index is 0.
#[repr(C)]
#[derive(Clone, Copy, Debug, PartialEq, Eq)]
pub struct Walked {
    /// The answer but for the index; the result is the number of buffers.
    pub outcome: Outcome,
    /// The ring's index.
    pub index: u16,
}

/// A step's answer: a refusal; the end of the stream; or a part.
///
/// What an answer has no use for is 0.
#[repr(C)]
#[derive(Clone, Copy, Debug, PartialEq, Eq)]
pub struct PartStep {
    /// Whether the step was refused.
    pub refused: bool,
    /// Whether the stream ends here.
    pub end: bool,
    /// The refusal's number.
    pub code: u32,
    /// The refusal's place.
    pub place: u64,
    /// The part's type.
    pub kind: u16,
    /// The part's flags.
    pub flags: u8,
    /// All eight bytes of the part's selector, as one number.
    pub selector: u64,
    /// Where the part's value begins in the stream.
    pub value_start: usize,
    /// How many bytes it has; its end lies in the stream.
    pub value_length: usize,
    /// The place of the next step; after a refusal or the end, of this one.
    pub next: usize,
}

/// What is read of a device file. Where it is refused, all else is 0.
#[repr(C)]
#[derive(Clone, Copy, Debug, PartialEq, Eq)]
pub struct DeviceHeader {
    /// The answer but for the header's fields; the result is the number of records.
    pub outcome: Outcome,
    /// The magic.
    pub magic: u32,
    /// The version.
    pub version: u32,
    /// The flags.
    pub flags: u32,
}

/// A record of a device file: a refusal; the end; or a record.
///
/// What an answer has no use for is 0.
#[repr(C)]
#[derive(Clone, Copy, Debug, PartialEq, Eq)]
pub struct DeviceRecord {
    /// The answer but for what was found.
    pub outcome: Outcome,
    /// Whether the file has no such record.
    pub end: bool,
    /// The record's type.
    pub kind: u32,
    /// Where it begins in the file.
    pub start: usize,
    /// Where its content begins.
    pub content_start: usize,
    /// How many bytes that has; its end lies in the file.
    pub content_length: usize,
}

/// The answer of a writer of device files. Where it is refused, no bytes in use are given.
#[repr(C)]
#[derive(Clone, Copy, Debug, PartialEq, Eq)]
pub struct WrittenFile {
    /// The answer but for the bytes in use; the result is 0.
    pub outcome: Outcome,
    /// How many bytes of the buffer are in use from now on.
    pub used: usize,
}

impl Register {
    /// Whether it is set.
    pub fn is_set(&self) -> bool {
        self.set == 1
    }
}

impl State {
    /// Whether the device runs.
    pub fn is_running(&self) -> bool {
        self.running == 1
    }

    /// Which card it is, if there is such a one.
    pub fn card(&self) -> Option<Card> {
        Card::with_words(self.words)
    }

    /// The size of the value in a slot of [`Registers`]: that of driver features goes by the card.
    pub fn value_size(&self, slot: usize) -> usize {
        match SLOTS[slot] {
            (kind::DRIVER_FEATURES, _, _) => 8 * usize::from(self.words),
            (_, _, size) => size,
        }
    }
}

// The library's layout: include/glintbasket.h asserts the same numbers.
const _: () = {
    use std::mem::{offset_of, size_of};
    assert!(size_of::<usize>() == 8);
    assert!(size_of::<Mapping>() == 32);
    assert!(offset_of!(Mapping, memory) == 8);
    assert!(offset_of!(Mapping, size) == 16);
    assert!(offset_of!(Mapping, rights) == 24);
    assert!(size_of::<Register>() == 33);
    assert!(size_of::<Registers>() == 462);
    assert!(size_of::<Line>() == 12);
    assert!(offset_of!(Line, tally) == 4);
    assert!(offset_of!(Line, masked) == 8);
    assert!(offset_of!(Line, pending) == 9);
    assert!(size_of::<State>() == 784);
    assert!(offset_of!(State, count) == 8);
    assert!(offset_of!(State, registers) == 16);
    assert!(offset_of!(State, running) == 478);
    assert!(offset_of!(State, words) == 479);
    assert!(offset_of!(State, iommu_type) == 480);
    assert!(offset_of!(State, lines) == 484);
    assert!(size_of::<Outcome>() == 24);
    assert!(size_of::<Found>() == 56);
    assert!(offset_of!(Found, address) == 24);
    assert!(offset_of!(Found, rights) == 32);
    assert!(offset_of!(Found, left) == 40);
    assert!(offset_of!(Found, probes) == 48);
    assert!(size_of::<ShownLine>() == 40);
    assert!(offset_of!(ShownLine, number) == 24);
    assert!(offset_of!(ShownLine, tally) == 28);
    assert!(offset_of!(ShownLine, masked) == 32);
    assert!(offset_of!(ShownLine, pending) == 33);
    assert!(size_of::<Walked>() == 32);
    assert!(offset_of!(Walked, index) == 24);
    assert!(size_of::<PartStep>() == 56);
    assert!(size_of::<DeviceHeader>() == 40);
    assert!(offset_of!(DeviceHeader, magic) == 24);
    assert!(offset_of!(DeviceHeader, version) == 28);
    assert!(offset_of!(DeviceHeader, flags) == 32);
    assert!(size_of::<DeviceRecord>() == 56);
    assert!(offset_of!(DeviceRecord, end) == 24);
    assert!(offset_of!(DeviceRecord, kind) == 28);
    assert!(offset_of!(DeviceRecord, start) == 32);
    assert!(offset_of!(DeviceRecord, content_start) == 40);
    assert!(offset_of!(DeviceRecord, content_length) == 48);
    assert!(size_of::<WrittenFile>() == 32);
    assert!(offset_of!(WrittenFile, used) == 24);
};
