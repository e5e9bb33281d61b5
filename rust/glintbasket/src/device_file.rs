//! Device files of the old layout: what a device once said of itself when its file was read.
//!
//! A file is a header and then records: of the device's regions, of its interrupts, and inside a region of where that lies and what it is.
//! [`DeviceFile`] reads one, [`DeviceFileWriter`] writes one. Neither has to do with a bench.
//!
//! | Type | | Stands | Content |
//! |---|---|---|---|
//! | 1 | [`REGION`] | outside | flags, offset, length: 20 bytes; then its sub-records |
//! | 2 | [`DTPATH`] | in a REGION | a path in the device tree, of any length |
//! | 3 | [`DTINDEX`] | in a REGION | property, index: 8 bytes |
//! | 4 | [`INTERRUPT`] | outside | flags, handle: 8 bytes |
//! | 5 | [`PCI_CONFIG_SPACE`] | in a REGION | flags: 4 bytes |
//! | 6 | [`PCI_BAR_INDEX`] | in a REGION | flags, index: 8 bytes |
//! | 7 | [`PHYS_ADDR`] | in a REGION | flags, address: 12 bytes |

use crate::error::Result;
use crate::raw;

/// The magic of a PCI device.
pub const MAGIC_PCI: u32 = 0x7063_6900;
/// The magic of a device of the device tree.
pub const MAGIC_DT: u32 = 0x6474_0000;

/// An addressable region of the device.
pub const REGION: u32 = 1;
/// The path of a region's node in the device tree.
pub const DTPATH: u32 = 2;
/// Which entry of a property of the device tree a region is.
pub const DTINDEX: u32 = 3;
/// An interrupt of the device.
pub const INTERRUPT: u32 = 4;
/// Says that a region is PCI configuration space.
pub const PCI_CONFIG_SPACE: u32 = 5;
/// Which BAR a region is.
pub const PCI_BAR_INDEX: u32 = 6;
/// The physical address of a region.
pub const PHYS_ADDR: u32 = 7;

/// A file, and the buffer that one is written to, have at most so many bytes.
pub const LIMIT: usize = 65536;
/// Bytes of a file before its first record.
pub const FILE_HEADER: usize = 12;
/// Bytes of a record before its content: type and length.
pub const RECORD_HEADER: usize = 8;

/// The name of a type of records, as `"REGION"`.
pub fn kind_name(kind: u32) -> Option<&'static str> {
    const NAMES: [&str; 7] = [
        "REGION",
        "DTPATH",
        "DTINDEX",
        "INTERRUPT",
        "PCI_CONFIG_SPACE",
        "PCI_BAR_INDEX",
        "PHYS_ADDR",
    ];
    let index = usize::try_from(kind).ok()?.checked_sub(1)?;
    NAMES.get(index).copied()
}

/// What stands in a file before its records.
#[derive(Clone, Copy, Debug, PartialEq, Eq, Hash)]
pub struct Header {
    /// [`MAGIC_PCI`] or [`MAGIC_DT`].
    pub magic: u32,
    /// Any.
    pub version: u32,
    /// Any.
    pub flags: u32,
}

/// The property of the device tree that a [`DTINDEX`] is about.
#[derive(Clone, Copy, Debug, PartialEq, Eq, Hash)]
pub enum Property {
    /// `reg`
    Reg = 1,
    /// `ranges`
    Ranges = 2,
    /// `interrupts`
    Interrupts = 3,
    /// `interrupt-map`
    InterruptMap = 4,
}

impl Property {
    /// The property with a number, if there is one.
    pub fn from_number(number: u32) -> Option<Property> {
        match number {
            1 => Some(Property::Reg),
            2 => Some(Property::Ranges),
            3 => Some(Property::Interrupts),
            4 => Some(Property::InterruptMap),
            _ => None,
        }
    }

    /// Its number, 1 to 4.
    pub fn number(self) -> u32 {
        self as u32
    }

    /// Its name in the device tree, as `"interrupt-map"`.
    pub fn name(self) -> &'static str {
        match self {
            Property::Reg => "reg",
            Property::Ranges => "ranges",
            Property::Interrupts => "interrupts",
            Property::InterruptMap => "interrupt-map",
        }
    }
}

/// The content of a record, by its fields.
#[derive(Clone, Copy, Debug, PartialEq, Eq, Hash)]
pub enum Content<'f> {
    /// Of a [`REGION`].
    Region {
        /// Any.
        flags: u32,
        /// Where the region begins, counted from the start of the device's file.
        offset: u64,
        /// How many bytes the region has.
        length: u64,
    },
    /// Of a [`DTPATH`]: any bytes.
    DtPath(&'f [u8]),
    /// Of a [`DTINDEX`].
    DtIndex {
        /// In which property.
        property: Property,
        /// Which entry of it, not at which byte.
        index: u32,
    },
    /// Of an [`INTERRUPT`].
    Interrupt {
        /// Any.
        flags: u32,
        /// What to ask for the interrupt's events with.
        handle: u32,
    },
    /// Of a [`PCI_CONFIG_SPACE`].
    PciConfigSpace {
        /// Any.
        flags: u32,
    },
    /// Of a [`PCI_BAR_INDEX`].
    PciBarIndex {
        /// Any.
        flags: u32,
        /// Which BAR.
        index: u32,
    },
    /// Of a [`PHYS_ADDR`].
    PhysAddr {
        /// Any.
        flags: u32,
        /// Where the region lies.
        address: u64,
    },
}

impl Content<'_> {
    /// The type of the record.
    pub fn kind(&self) -> u32 {
        match self {
            Content::Region { .. } => REGION,
            Content::DtPath(_) => DTPATH,
            Content::DtIndex { .. } => DTINDEX,
            Content::Interrupt { .. } => INTERRUPT,
            Content::PciConfigSpace { .. } => PCI_CONFIG_SPACE,
            Content::PciBarIndex { .. } => PCI_BAR_INDEX,
            Content::PhysAddr { .. } => PHYS_ADDR,
        }
    }

    /// The fields as bytes, without gaps between them.
    pub fn to_bytes(&self) -> Vec<u8> {
        let two = |one: u32, other: u32| [one.to_le_bytes(), other.to_le_bytes()].concat();
        match *self {
            Content::Region {
                flags,
                offset,
                length,
            } => [
                &flags.to_le_bytes()[..],
                &offset.to_le_bytes(),
                &length.to_le_bytes(),
            ]
            .concat(),
            Content::DtPath(path) => path.to_vec(),
            Content::DtIndex { property, index } => two(property.number(), index),
            Content::Interrupt { flags, handle } => two(flags, handle),
            Content::PciConfigSpace { flags } => flags.to_le_bytes().to_vec(),
            Content::PciBarIndex { flags, index } => two(flags, index),
            Content::PhysAddr { flags, address } => {
                [&flags.to_le_bytes()[..], &address.to_le_bytes()].concat()
            }
        }
    }
}

/// A record of a file.
#[derive(Clone, Copy, Debug, PartialEq, Eq, Hash)]
pub struct Record<'f> {
    /// Its type, [`REGION`] to [`PHYS_ADDR`].
    pub kind: u32,
    /// Where it begins in the file.
    pub start: usize,
    /// Its content: that stretch of the file. Of a REGION it is the 20 bytes before its sub-records.
    pub bytes: &'f [u8],
}

impl<'f> Record<'f> {
    /// Whether it stands in a REGION, which is the last one before it.
    pub fn is_sub_record(&self) -> bool {
        self.kind != REGION && self.kind != INTERRUPT
    }

    /// Its content by fields. None where the record was not handed out by a [`DeviceFile`], and its bytes are not what its type needs.
    pub fn content(&self) -> Option<Content<'f>> {
        let bytes = self.bytes;
        let four = |at: usize| Some(u32::from_le_bytes(bytes.get(at..at + 4)?.try_into().ok()?));
        let eight = |at: usize| Some(u64::from_le_bytes(bytes.get(at..at + 8)?.try_into().ok()?));
        let content = match self.kind {
            REGION => Content::Region {
                flags: four(0)?,
                offset: eight(4)?,
                length: eight(12)?,
            },
            DTPATH => Content::DtPath(bytes),
            DTINDEX => Content::DtIndex {
                property: Property::from_number(four(0)?)?,
                index: four(4)?,
            },
            INTERRUPT => Content::Interrupt {
                flags: four(0)?,
                handle: four(4)?,
            },
            PCI_CONFIG_SPACE => Content::PciConfigSpace { flags: four(0)? },
            PCI_BAR_INDEX => Content::PciBarIndex {
                flags: four(0)?,
                index: four(4)?,
            },
            PHYS_ADDR => Content::PhysAddr {
                flags: four(0)?,
                address: eight(4)?,
            },
            _ => return None,
        };
        Some(content)
    }
}

/// A device file that reads well.
///
/// ```
/// use glintbasket::device_file::{self, Content, Header};
/// use glintbasket::{DeviceFile, DeviceFileWriter, Refusal};
///
/// # fn main() -> Result<(), glintbasket::Error> {
/// // A PCI device with one region, which is BAR 0, and an interrupt.
/// let header = Header { magic: device_file::MAGIC_PCI, version: 1, flags: 0 };
/// let mut buffer = [0; 128];
/// let mut writer = DeviceFileWriter::start(&mut buffer, header)?;
/// writer.append_content(&Content::Region { flags: 1, offset: 0, length: 0x4000 })?;
/// writer.append_content(&Content::PciBarIndex { flags: 0, index: 0 })?;
/// writer.append_content(&Content::Interrupt { flags: 0, handle: 7 })?;
/// let bytes = writer.bytes().to_vec();
///
/// let file = DeviceFile::parse(&bytes)?;
/// assert_eq!(file.header(), header);
/// let found: Vec<_> = file.records().map(|record| (record.kind, record.start)).collect();
/// assert_eq!(found, [(1, 12), (6, 40), (4, 56)]);
/// let bar = file.record(1).and_then(|record| record.content());
/// assert_eq!(bar, Some(Content::PciBarIndex { flags: 0, index: 0 }));
///
/// // The INTERRUPT ends one byte early.
/// let error = DeviceFile::parse(&bytes[..bytes.len() - 1]).unwrap_err();
/// assert_eq!((error.refusal, error.place), (Refusal::Truncated, 56));
/// # Ok(())
/// # }
/// ```
#[derive(Clone, Copy, Debug)]
pub struct DeviceFile<'f> {
    bytes: &'f [u8],
    header: Header,
    count: u64,
}

impl<'f> DeviceFile<'f> {
    /// Judges a whole file.
    ///
    /// Refused: `TooLong`; `Truncated` for a header that ends early; `Magic`; then by the first fault in file order, with the start of the
    /// record as place: `Truncated` where less than 8 bytes are left in the file or in the REGION around, `UnknownPart` for a type that
    /// there is not, `Header` for a record at the wrong level, `Truncated` for a length past that room, `Value` for a length that the type
    /// has not or a property that there is not.
    pub fn parse(bytes: &'f [u8]) -> Result<DeviceFile<'f>> {
        let read = raw::read_device_file(bytes);
        let count = read.outcome.answer()?;
        let header = Header {
            magic: read.magic,
            version: read.version,
            flags: read.flags,
        };
        Ok(DeviceFile {
            bytes,
            header,
            count,
        })
    }

    /// The fields of its header.
    pub fn header(&self) -> Header {
        self.header
    }

    /// How many records it has, sub-records too.
    pub fn record_count(&self) -> u64 {
        self.count
    }

    /// The file itself.
    pub fn bytes(&self) -> &'f [u8] {
        self.bytes
    }

    /// Record `n` in file order, the first being 0. Sub-records stand behind their REGION.
    pub fn record(&self, n: u64) -> Option<Record<'f>> {
        let record = raw::read_device_record(self.bytes, n);
        record.outcome.answer().expect("the file reads well");
        (!record.end).then(|| Record {
            kind: record.kind,
            start: record.start,
            bytes: &self.bytes[record.content_start..][..record.content_length],
        })
    }

    /// All records in file order. Each step judges the whole file again.
    pub fn records(&self) -> impl Iterator<Item = Record<'f>> + use<'f> {
        let file = *self;
        (0..self.count).map_while(move |n| file.record(n))
    }
}

/// Writes a device file to a buffer, record by record.
///
/// What is written reads back: after each append the bytes in use are a file with the records that it had, and the new one.
///
/// ```
/// use glintbasket::device_file::{self, Content, Header};
/// use glintbasket::{DeviceFile, DeviceFileWriter, Error, Refusal};
///
/// # fn main() -> Result<(), Error> {
/// let header = Header { magic: device_file::MAGIC_DT, version: 1, flags: 0 };
/// let mut buffer = [0; 60];
/// let mut writer = DeviceFileWriter::start(&mut buffer, header)?;
///
/// // A path stands in a REGION, and there is none.
/// let refused = writer.append(device_file::DTPATH, b"/soc").unwrap_err();
/// assert_eq!(refused.refusal, Refusal::Header);
///
/// writer.append_content(&Content::Region { flags: 0, offset: 0, length: 4096 })?;
/// writer.append(device_file::DTPATH, b"/soc")?;
/// assert_eq!(writer.bytes().len(), 12 + 28 + 12);
///
/// // Eight bytes are left: room for no more than an empty path.
/// let refused = writer.append(device_file::DTPATH, b"/").unwrap_err();
/// assert_eq!(refused.refusal, Refusal::NoSpace);
/// # Ok(())
/// # }
/// ```
#[derive(Debug)]
pub struct DeviceFileWriter<'b> {
    buffer: &'b mut [u8],
    used: usize,
}

impl<'b> DeviceFileWriter<'b> {
    /// Starts a file of no records.
    ///
    /// Refused, and the buffer stays: `TooLong` for a buffer above [`LIMIT`], `Magic`, `NoSpace`.
    pub fn start(buffer: &'b mut [u8], header: Header) -> Result<DeviceFileWriter<'b>> {
        let Header {
            magic,
            version,
            flags,
        } = header;
        let written = raw::start_device_file(buffer, magic, version, flags);
        written.outcome.answer()?;
        let used = written.used;
        Ok(DeviceFileWriter { buffer, used })
    }

    /// Goes on with a file that the first `used` bytes of a buffer are. They are judged when a record is appended.
    pub fn resume(buffer: &'b mut [u8], used: usize) -> DeviceFileWriter<'b> {
        DeviceFileWriter { buffer, used }
    }

    /// Appends a record by type and content, a REGION without sub-records. A sub-record goes into the REGION that stands last.
    ///
    /// Refused, and the buffer stays: `TooLong` for a buffer above [`LIMIT`]; `Truncated` for more bytes in use than it has; what
    /// [`DeviceFile::parse`] refuses the bytes in use with; then, at place 0, `UnknownPart`, `Header` for a sub-record where no REGION
    /// stands last, `Value` and `NoSpace`.
    pub fn append(&mut self, kind: u32, content: &[u8]) -> Result<()> {
        let written = raw::append_device_record(self.buffer, self.used, kind, content);
        written.outcome.answer()?;
        self.used = written.used;
        Ok(())
    }

    /// Appends a record by its fields.
    ///
    /// Refused: as [`append`](DeviceFileWriter::append).
    pub fn append_content(&mut self, content: &Content) -> Result<()> {
        self.append(content.kind(), &content.to_bytes())
    }

    /// The file: the bytes in use, as far as the buffer has them.
    pub fn bytes(&self) -> &[u8] {
        &self.buffer[..self.used.min(self.buffer.len())]
    }
}
