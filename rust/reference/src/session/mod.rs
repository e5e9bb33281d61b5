//! Session files, as docs/session-format.md says: judged whole, then played.

mod names;
mod play;
mod read;
mod words;

pub use play::play;
pub use read::{byte, read};

use crate::registers::Words;

/// A session file without faults.
#[derive(Clone, Debug, PartialEq, Eq)]
pub struct Session {
    pub memory_size: usize,
    /// What memory, output buffers and stale bytes start as.
    pub garbage: u8,
    /// The words of the card's features.
    pub card: Words,
    /// How many records there are for mappings.
    pub records: usize,
    pub lines: Vec<Line>,
}

#[derive(Clone, Debug, PartialEq, Eq)]
pub struct Line {
    /// The number of the line in the file, from 1.
    pub number: usize,
    pub call: Call,
    /// The text behind `=>`, its runs of blanks made one.
    pub expected: Option<String>,
}

#[derive(Clone, Debug, PartialEq, Eq)]
pub enum Call {
    PowerOn {
        card: Words,
    },
    /// A byte of the buffer that is nothing is stale.
    Request {
        target: u64,
        number: u64,
        buffer: Vec<Option<u8>>,
    },
    LookUp {
        device: u64,
    },
    ShowLine {
        index: u64,
        line: u64,
    },
    /// Without room, there is enough.
    WalkQueue {
        queue: u64,
        last: u64,
        room: Option<usize>,
    },
    CardRead {
        device: u64,
        length: usize,
    },
    CardWrite {
        device: u64,
        bytes: Vec<u8>,
    },
    HostStore {
        memory: u64,
        bytes: Vec<u8>,
    },
    HostLoad {
        memory: u64,
        length: usize,
    },
    Forget {
        memory: u64,
        length: u64,
    },
    SetRegister {
        kind: u64,
        selector: u64,
        value: Vec<u8>,
    },
    ReadRegister {
        kind: u64,
        selector: u64,
        room: usize,
    },
    LoadParts {
        stream: Vec<u8>,
    },
    SaveParts {
        room: usize,
    },
    Stop,
    Start,
    Step {
        place: u64,
        stream: Vec<u8>,
    },
    CheckSave {
        card: Words,
        stream: Vec<u8>,
    },
    ReadDeviceFile {
        file: Vec<u8>,
    },
    ReadDeviceRecord {
        n: u64,
        file: Vec<u8>,
    },
    StartDeviceFile {
        room: usize,
        magic: u64,
        version: u64,
        flags: u64,
    },
    /// The file is the bytes in use, cut off where the room ends.
    AppendDeviceRecord {
        room: usize,
        kind: u64,
        content: Vec<u8>,
        file: Vec<u8>,
    },
}

/// Something in a session file that is not as the format says.
#[derive(Clone, Debug, PartialEq, Eq)]
pub struct Fault {
    pub line: usize,
    /// In characters from 1.
    pub column: usize,
    pub message: String,
}
