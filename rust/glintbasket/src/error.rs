//! Refusals, and the error that carries one.

use crate::raw::Outcome;
use std::fmt;

/// Defines the refusals from one list, so that names and numbers cannot drift apart.
macro_rules! refusals {
    ($($(#[$meta:meta])* $name:ident = $number:literal,)*) => {
        /// Why a call was refused. Each has the number and the name of the rules' table.
        #[derive(Clone, Copy, Debug, PartialEq, Eq, Hash)]
        pub enum Refusal {
            $($(#[$meta])* $name = $number,)*
        }

        impl Refusal {
            /// All refusals, by rising number.
            pub const ALL: [Refusal; 33] = [$(Refusal::$name,)*];

            /// The name, as `"Unwritten"`.
            pub fn name(self) -> &'static str {
                match self {
                    $(Refusal::$name => stringify!($name),)*
                }
            }
        }
    };
}

refusals! {
    /// Marks are not as many as memory asks for, memory exceeds 2^30 bytes or has not the noted length, there are more than 4,096 records
    /// or fewer than are in use, or the kept state or a record in use is not sound.
    BadBench = 1,
    /// The target has no request of this number.
    NoSuchRequest = 2,
    /// The buffer is shorter than the request's size.
    Short = 3,
    /// `argsz` is below the request's size, or that of its data, or above the buffer's length.
    ArgSize = 4,
    /// Flags are not allowed; or the container cannot become of an IOMMU type: there is none of that number, or a mapping is held.
    Flags = 5,
    /// There is no such region, interrupt, line, queue or field. Place in a stream: the start of the part.
    Index = 6,
    /// An address or size is no multiple of 4,096.
    Unaligned = 7,
    /// Size 0, or no interrupt line.
    Empty = 8,
    /// Past 2^48, past the end of memory, or past the last line of an interrupt index. Place in a walk of a queue: where the read begins,
    /// at most 2^64 - 1.
    Range = 9,
    /// The range shares a device address with a held mapping.
    Overlap = 10,
    /// As many mappings are held as there are records.
    NoRoom = 11,
    /// The range holds some but not all of a mapping. Never in a container of [`Type1`](crate::IommuType::Type1).
    Cuts = 12,
    /// A transfer or stream over 65,536 bytes; or a device file, or the buffer for one.
    TooLong = 13,
    /// No mapping holds the device address. Place: the first faulty offset; in a walk of a queue the device address of the faulty byte.
    Unmapped = 14,
    /// The mapping lacks the right. Place: the same.
    NoRight = 15,
    /// Nobody wrote the byte. Place: the same.
    Unwritten = 16,
    /// The device is not stopped.
    Running = 17,
    /// The stream ends inside the part; or the record of a device file does not end inside the file, or the REGION around it. Place: the
    /// start of the part or record.
    Truncated = 18,
    /// The part's header is malformed; or the record of a device file stands at the wrong level, or no REGION is there to take it. Place:
    /// the start of the part or record; 0 for a register and for a record that is appended.
    Header = 19,
    /// No such type of register, part or record. Place: the same.
    UnknownPart = 20,
    /// The stream has the part twice. Place: the start of the second.
    Twice = 21,
    /// The value is not allowed, or an event number is below -1; or the record of a device file has not the length of its type, or no such
    /// property. Place: the start of the part or record; 0 for a register, an event number and a record that is appended.
    Value = 22,
    /// The value does not fit this device. Place: the start of the part; 0 for a register.
    Mismatch = 23,
    /// The stream has no status part. Place: the length of the stream.
    Missing = 24,
    /// The register is not set.
    Unset = 25,
    /// Offered features cannot be set.
    ReadOnly = 26,
    /// The output buffer is too small, or the array for a walk of a queue, or the buffer of a device file.
    NoSpace = 27,
    /// The queue is not set, or not enabled.
    QueueNotReady = 28,
    /// The ring's index is further from the caller's last one than the queue has descriptors.
    RingDistance = 29,
    /// A head or a `next` names no descriptor of the queue. Place: how many heads were finished.
    DescriptorIndex = 30,
    /// A chain goes on behind as many descriptors as the queue has. Place: how many heads were finished.
    ChainLength = 31,
    /// A descriptor is indirect. Place: how many heads were finished.
    Indirect = 32,
    /// No device file has this magic.
    Magic = 33,
}

impl Refusal {
    /// The number, 1 to 33.
    pub fn number(self) -> u32 {
        self as u32
    }

    /// The refusal with a number, if there is one.
    pub fn from_number(number: u32) -> Option<Refusal> {
        let index = usize::try_from(number).ok()?.checked_sub(1)?;
        Refusal::ALL.get(index).copied()
    }
}

impl fmt::Display for Refusal {
    fn fmt(&self, f: &mut fmt::Formatter<'_>) -> fmt::Result {
        write!(f, "{} {}", self.number(), self.name())
    }
}

/// A refusal and its place. Nothing lent or kept has changed.
#[derive(Clone, Copy, Debug, PartialEq, Eq, Hash)]
pub struct Error {
    /// Why.
    pub refusal: Refusal,
    /// Where: what the refusal's description says, or 0.
    pub place: u64,
}

impl Error {
    pub(crate) fn from_code(code: u32, place: u64) -> Error {
        let refusal = Refusal::from_number(code).expect("the library refuses with 1 to 33");
        Error { refusal, place }
    }
}

impl fmt::Display for Error {
    fn fmt(&self, f: &mut fmt::Formatter<'_>) -> fmt::Result {
        write!(f, "refused {} at {}", self.refusal, self.place)
    }
}

impl std::error::Error for Error {}

/// What a call gives.
pub type Result<T> = std::result::Result<T, Error>;

/// Why [`Bench::look_up`](crate::Bench::look_up) found nothing: an [`Error`], which it turns into, and what the search cost.
#[derive(Clone, Copy, Debug, PartialEq, Eq, Hash)]
pub struct LookUpError {
    /// Why: `BadBench`, `Range` or `Unmapped`.
    pub refusal: Refusal,
    /// Where: 0, since there is one address.
    pub place: u64,
    /// With `Unmapped`, how many mappings the search looked at. No other refusal has a number: nothing was looked at.
    pub probes: Option<u64>,
}

impl LookUpError {
    pub(crate) fn new(error: Error, probes: u64) -> LookUpError {
        LookUpError {
            refusal: error.refusal,
            place: error.place,
            probes: (error.refusal == Refusal::Unmapped).then_some(probes),
        }
    }
}

impl From<LookUpError> for Error {
    fn from(error: LookUpError) -> Error {
        Error {
            refusal: error.refusal,
            place: error.place,
        }
    }
}

impl fmt::Display for LookUpError {
    fn fmt(&self, f: &mut fmt::Formatter<'_>) -> fmt::Result {
        Error::from(*self).fmt(f)?;
        match self.probes {
            Some(probes) => write!(f, " probes {probes}"),
            None => Ok(()),
        }
    }
}

impl std::error::Error for LookUpError {}

impl Outcome {
    /// The result, or the refusal.
    pub(crate) fn answer(self) -> Result<u64> {
        if self.refused {
            Err(Error::from_code(self.code, self.place))
        } else {
            Ok(self.result)
        }
    }
}
