//! Device files: generated files, starts and appends, made on the emulator, on a twin whose buffer
//! has other bytes behind those in use, and on the second program, and compared after every call.

mod cases;
mod generate;

use std::fmt::{self, Write};
use std::panic::{catch_unwind, AssertUnwindSafe};

use glint_reference::answer::Refused;
use glint_reference::bytes::number_at;
use glint_reference::device_files as second;
use glintbasket::raw::{self, DeviceHeader, DeviceRecord, Outcome, WrittenFile};

use crate::random::Random;
pub use cases::FileCoverage;
pub use generate::{append, file, start};

/// Files of a seed.
const FILES: usize = 6;
/// Of a file with more records than this, some are read.
const MANY: u64 = 40;

/// A call, but for its file or buffer.
#[derive(Clone, Debug, PartialEq)]
pub enum FileCall {
    Read,
    Record {
        n: u64,
    },
    Start {
        magic: u32,
        version: u32,
        flags: u32,
    },
    Append {
        used: usize,
        kind: u32,
        content: Vec<u8>,
    },
}

/// The answer as C has it, whole: what it has no use for is 0.
#[derive(Clone, Copy, Debug, PartialEq)]
pub enum FileAnswer {
    Read(DeviceHeader),
    Record(DeviceRecord),
    Written(WrittenFile),
}

impl FileAnswer {
    pub fn outcome(&self) -> Outcome {
        match self {
            FileAnswer::Read(header) => header.outcome,
            FileAnswer::Record(record) => record.outcome,
            FileAnswer::Written(written) => written.outcome,
        }
    }

    /// The same refused, with all else 0.
    pub fn refused_with(self, code: u32, place: u64) -> FileAnswer {
        refused(self, code, place)
    }
}

impl FileCall {
    /// How many bytes of a file or buffer of this length the call may look at.
    pub fn in_use(&self, length: usize) -> usize {
        match self {
            FileCall::Read | FileCall::Record { .. } => length,
            FileCall::Start { .. } => 0,
            FileCall::Append { used, .. } => (*used).min(length),
        }
    }
}

/// A call with what it was given, as a test of this program sees it.
pub struct Given<'a> {
    pub call: &'a FileCall,
    pub bytes: &'a [u8],
}

/// Changes what the emulator answers and leaves: for tests of this program.
pub type FileTamper = fn(&Given, FileAnswer, &mut [u8]) -> FileAnswer;

pub fn faithful_file(_: &Given, answer: FileAnswer, _: &mut [u8]) -> FileAnswer {
    answer
}

fn emulate(call: &FileCall, bytes: &mut [u8]) -> FileAnswer {
    match call {
        FileCall::Read => FileAnswer::Read(raw::read_device_file(bytes)),
        FileCall::Record { n } => FileAnswer::Record(raw::read_device_record(bytes, *n)),
        FileCall::Start {
            magic,
            version,
            flags,
        } => FileAnswer::Written(raw::start_device_file(bytes, *magic, *version, *flags)),
        FileCall::Append {
            used,
            kind,
            content,
        } => FileAnswer::Written(raw::append_device_record(bytes, *used, *kind, content)),
    }
}

const NOTHING: Outcome = Outcome {
    refused: false,
    code: 0,
    place: 0,
    result: 0,
};
const NO_HEADER: DeviceHeader = DeviceHeader {
    outcome: NOTHING,
    magic: 0,
    version: 0,
    flags: 0,
};
const NO_RECORD: DeviceRecord = DeviceRecord {
    outcome: NOTHING,
    end: false,
    kind: 0,
    start: 0,
    content_start: 0,
    content_length: 0,
};
const NOT_WRITTEN: WrittenFile = WrittenFile {
    outcome: NOTHING,
    used: 0,
};

fn refused(like: FileAnswer, code: u32, place: u64) -> FileAnswer {
    let outcome = Outcome {
        refused: true,
        code,
        place,
        result: 0,
    };
    match like {
        FileAnswer::Read(_) => FileAnswer::Read(DeviceHeader {
            outcome,
            ..NO_HEADER
        }),
        FileAnswer::Record(_) => FileAnswer::Record(DeviceRecord {
            outcome,
            ..NO_RECORD
        }),
        FileAnswer::Written(_) => FileAnswer::Written(WrittenFile {
            outcome,
            ..NOT_WRITTEN
        }),
    }
}

/// The second program's answer, as C would have it.
fn refer(call: &FileCall, bytes: &mut [u8]) -> FileAnswer {
    let or_refused = |answer: Result<FileAnswer, Refused>, like| {
        answer.unwrap_or_else(|r| refused(like, r.refusal.number() as u32, r.place))
    };
    let used = |answer: Result<usize, Refused>| {
        let written = answer.map(|used| {
            FileAnswer::Written(WrittenFile {
                used,
                ..NOT_WRITTEN
            })
        });
        or_refused(written, FileAnswer::Written(NOT_WRITTEN))
    };
    match call {
        FileCall::Read => {
            let read = second::read_device_file(bytes).map(|file| {
                FileAnswer::Read(DeviceHeader {
                    outcome: Outcome {
                        result: file.records.len() as u64,
                        ..NOTHING
                    },
                    magic: file.magic as u32,
                    version: file.version as u32,
                    flags: file.flags as u32,
                })
            });
            or_refused(read, FileAnswer::Read(NO_HEADER))
        }
        FileCall::Record { n } => {
            let found = second::read_device_record(bytes, *n).map(|record| {
                FileAnswer::Record(match record {
                    Some(record) => DeviceRecord {
                        kind: record.kind as u32,
                        start: record.start,
                        content_start: record.content_start,
                        content_length: record.content_length,
                        ..NO_RECORD
                    },
                    None => DeviceRecord {
                        end: true,
                        ..NO_RECORD
                    },
                })
            });
            or_refused(found, FileAnswer::Record(NO_RECORD))
        }
        FileCall::Start {
            magic,
            version,
            flags,
        } => used(second::start_device_file(
            bytes,
            u64::from(*magic),
            u64::from(*version),
            u64::from(*flags),
        )),
        FileCall::Append {
            used: in_use,
            kind,
            content,
        } => used(second::append_device_record(
            bytes,
            *in_use,
            u64::from(*kind),
            content,
        )),
    }
}

/// What a call answered, and the bytes that it left.
type Left = (FileAnswer, Vec<u8>);

/// Makes a call on all three. `other` is what the twin's bytes differ by.
pub fn compare(
    call: &FileCall,
    given: &[u8],
    other: u8,
    tamper: FileTamper,
) -> Result<Left, String> {
    let tampered = |given: &[u8]| {
        let mut bytes = given.to_vec();
        let answer = emulate(call, &mut bytes);
        let answer = tamper(&Given { call, bytes: given }, answer, &mut bytes);
        (answer, bytes)
    };
    let (answer, bytes) = tampered(given);
    let mut second_bytes = given.to_vec();
    let second = catch_unwind(AssertUnwindSafe(|| refer(call, &mut second_bytes)))
        .map_err(|_| "the second program panicked".to_string())?;
    if answer != second {
        return Err(format!("answers: {answer:?}, second program {second:?}"));
    }
    same_bytes("second program", &bytes, &second_bytes)?;
    let outcome = answer.outcome();
    if outcome.refused {
        same_bytes("bytes before a refusal", &bytes, given)?;
    }

    let in_use = call.in_use(given.len());
    let mut twin_given = given.to_vec();
    for byte in &mut twin_given[in_use..] {
        *byte ^= other;
    }
    let (twin_answer, twin_bytes) = tampered(&twin_given);
    if answer != twin_answer {
        return Err(format!("answers: {answer:?}, twin {twin_answer:?}"));
    }
    let end = match answer {
        FileAnswer::Written(written) if !outcome.refused => written.used,
        _ => in_use,
    };
    same_bytes("twin", &bytes[..end], &twin_bytes[..end])?;
    same_bytes("bytes behind those in use", &bytes[end..], &given[end..])?;
    same_bytes("twin's there", &twin_bytes[end..], &twin_given[end..])?;
    Ok((answer, bytes))
}

fn same_bytes(of: &str, one: &[u8], other: &[u8]) -> Result<(), String> {
    match one.iter().zip(other).position(|(a, b)| a != b) {
        Some(at) => Err(format!(
            "byte {at} is {:#04x}, {of} {:#04x}",
            one[at], other[at]
        )),
        None if one.len() != other.len() => {
            Err(format!("{} bytes, {of} {}", one.len(), other.len()))
        }
        None => Ok(()),
    }
}

/// A call on which the programs differ.
pub struct FileDifference {
    pub seed: u64,
    pub call: FileCall,
    pub given: Vec<u8>,
    pub fault: String,
    other: u8,
    tamper: FileTamper,
}

/// The files of a seed: each is read, whole and by records, and written back if it reads well; others
/// are started and appended to.
pub fn run_files(
    seed: u64,
    tamper: FileTamper,
    coverage: &mut FileCoverage,
) -> Result<(), FileDifference> {
    let mut random = Random::new(!seed);
    let mut maker = Maker {
        seed,
        other: random.from(1, 255) as u8,
        tamper,
        coverage,
    };
    for _ in 0..FILES {
        let bytes = file(&mut random);
        maker.read(&bytes, &mut random)?;
        let (call, buffer) = start(&mut random);
        maker.make(&call, &buffer)?;
        for _ in 0..2 {
            let (call, buffer) = append(&mut random);
            maker.append(&call, &buffer)?;
        }
    }
    Ok(())
}

struct Maker<'c> {
    seed: u64,
    other: u8,
    tamper: FileTamper,
    coverage: &'c mut FileCoverage,
}

impl Maker<'_> {
    fn make(&mut self, call: &FileCall, given: &[u8]) -> Result<Left, FileDifference> {
        match compare(call, given, self.other, self.tamper) {
            Ok((answer, bytes)) => {
                self.coverage.count(call, given, &answer);
                Ok((answer, bytes))
            }
            Err(fault) => Err(self.difference(call, given, fault)),
        }
    }

    fn difference(&self, call: &FileCall, given: &[u8], fault: String) -> FileDifference {
        FileDifference {
            seed: self.seed,
            call: call.clone(),
            given: given.to_vec(),
            fault,
            other: self.other,
            tamper: self.tamper,
        }
    }

    fn read(&mut self, bytes: &[u8], random: &mut Random) -> Result<(), FileDifference> {
        let (answer, _) = self.make(&FileCall::Read, bytes)?;
        let FileAnswer::Read(header) = answer else {
            unreachable!("an answer of its kind");
        };
        if header.outcome.refused {
            let n = random.pick(&[0, 1, u64::MAX]);
            return self.make(&FileCall::Record { n }, bytes).map(|_| ());
        }
        let count = header.outcome.result;
        let mut asked: Vec<u64> = if count <= MANY {
            (0..count).collect()
        } else {
            (0..MANY / 4).map(|_| random.below(count)).collect()
        };
        asked.extend([count, count + 1, 1 << 32, u64::MAX]);
        let mut found = Vec::new();
        for n in asked {
            let (answer, _) = self.make(&FileCall::Record { n }, bytes)?;
            if let FileAnswer::Record(record) = answer {
                found.extend((!record.end).then_some(record));
            }
        }
        if count <= MANY {
            self.write_back(header, &found, bytes, random)?;
        }
        Ok(())
    }

    /// What is read writes back the same bytes.
    fn write_back(
        &mut self,
        header: DeviceHeader,
        records: &[DeviceRecord],
        bytes: &[u8],
        random: &mut Random,
    ) -> Result<(), FileDifference> {
        let room = random.pick(&[0, 1, 8, 100]).min(65_536 - bytes.len());
        let call = FileCall::Start {
            magic: header.magic,
            version: header.version,
            flags: header.flags,
        };
        let (mut answer, mut buffer) = self.make(&call, &random.bytes(bytes.len() + room))?;
        for record in records {
            let FileAnswer::Written(WrittenFile { used, .. }) = answer else {
                unreachable!("an answer of its kind");
            };
            let content = bytes[record.content_start..][..record.content_length].to_vec();
            let kind = record.kind;
            let call = FileCall::Append {
                used,
                kind,
                content,
            };
            (answer, buffer) = self.make(&call, &buffer)?;
        }
        if answer.outcome().refused || buffer[..bytes.len()] != *bytes {
            let fault = "what is read does not write back".to_string();
            return Err(self.difference(&FileCall::Read, bytes, fault));
        }
        Ok(())
    }

    /// What is appended reads back, behind what was there.
    fn append(&mut self, call: &FileCall, given: &[u8]) -> Result<(), FileDifference> {
        let (answer, bytes) = self.make(call, given)?;
        let (
            FileAnswer::Written(written),
            FileCall::Append {
                used,
                kind,
                content,
            },
        ) = (answer, call)
        else {
            unreachable!("an append, and an answer of its kind");
        };
        if written.outcome.refused {
            return Ok(());
        }
        let (before, after) = (&given[..*used], &bytes[..written.used]);
        // Of many records, the last are enough.
        let count = raw::read_device_file(before).outcome.result;
        let from = count.saturating_sub(MANY);
        let mut expected = listed(before, from);
        expected.push((*kind, *used, content.clone()));
        if listed(after, from) != expected || after[..12] != before[..12] {
            let fault = "what is appended does not read back".to_string();
            return Err(self.difference(call, given, fault));
        }
        Ok(())
    }
}

/// The records of a file from one on, by type, start and content, as the emulator hands them out.
fn listed(bytes: &[u8], from: u64) -> Vec<(u32, usize, Vec<u8>)> {
    let count = raw::read_device_file(bytes).outcome.result;
    (from..count)
        .map(|n| {
            let record = raw::read_device_record(bytes, n);
            let content = &bytes[record.content_start..][..record.content_length];
            (record.kind, record.start, content.to_vec())
        })
        .collect()
}

impl FileDifference {
    /// The same call on ever fewer bytes, for as long as any difference stays: records that stand outside
    /// are left out, and then runs of bytes.
    pub fn shortened(&self) -> (FileCall, Vec<u8>) {
        let mut short = (self.call.clone(), self.given.clone());
        let records = outside(&self.given[..self.call.in_use(self.given.len())]);
        for (start, length) in records.into_iter().rev() {
            self.leave_out(&mut short, start, length);
        }
        let mut run = short.1.len() / 2;
        while run > 0 {
            let mut from = 0;
            while from + run <= short.1.len() {
                if !self.leave_out(&mut short, from, run) {
                    from += run;
                }
            }
            run /= 2;
        }
        short
    }

    /// Leaves out a run of bytes, if a difference stays.
    fn leave_out(&self, short: &mut (FileCall, Vec<u8>), from: usize, run: usize) -> bool {
        let (call, bytes) = without(&short.0, &short.1, from, run);
        let differs = compare(&call, &bytes, self.other, self.tamper).is_err();
        if differs {
            *short = (call, bytes);
        }
        differs
    }

    pub fn report(&self) -> String {
        let (call, bytes) = self.shortened();
        let mut report = format!("seed {:#x}: {}\n", self.seed, self.fault);
        writeln!(report, "  {call} on {} bytes:", bytes.len()).unwrap();
        for line in bytes.chunks(32).take(16) {
            let pairs: Vec<String> = line.iter().map(|byte| format!("{byte:02x}")).collect();
            writeln!(report, "  {}", pairs.join(" ")).unwrap();
        }
        if let Err(fault) = compare(&call, &bytes, self.other, self.tamper) {
            writeln!(report, "  => {fault}").unwrap();
        }
        report
    }
}

/// The records that stand outside, from the first on for as long as they lie in the file: start and
/// length.
fn outside(bytes: &[u8]) -> Vec<(usize, usize)> {
    let mut found = Vec::new();
    let mut start = second::FILE_HEADER;
    while start + second::RECORD_HEADER <= bytes.len() {
        let length = number_at(bytes, start + 4, 4) as usize;
        if length < second::RECORD_HEADER || length > bytes.len() - start {
            break;
        }
        found.push((start, length));
        start += length;
    }
    found
}

/// A call without a run of its bytes.
fn without(call: &FileCall, bytes: &[u8], from: usize, run: usize) -> (FileCall, Vec<u8>) {
    let mut call = call.clone();
    if let FileCall::Append { used, .. } = &mut call {
        *used -= used.saturating_sub(from).min(run);
    }
    (call, [&bytes[..from], &bytes[from + run..]].concat())
}

impl fmt::Display for FileCall {
    fn fmt(&self, f: &mut fmt::Formatter) -> fmt::Result {
        match self {
            FileCall::Read => write!(f, "read device file"),
            FileCall::Record { n } => write!(f, "read device record {n}"),
            FileCall::Start {
                magic,
                version,
                flags,
            } => write!(f, "start device file {magic:#x} {version} {flags}"),
            FileCall::Append {
                used,
                kind,
                content,
            } => {
                let length = content.len();
                write!(f, "append type {kind} with {length} bytes to {used} in use")
            }
        }
    }
}
