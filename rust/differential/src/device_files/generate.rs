//! Device files: good ones, and ones with a few faults; and what is written to them.

use super::FileCall;
use crate::random::Random;

const MAGICS: [u32; 2] = [0x7063_6900, 0x6474_0000];
const LONGEST: usize = 65_536;

/// The bytes of each type's content, from type 1 on; a path has any number.
const SIZES: [usize; 7] = [20, 0, 8, 8, 4, 8, 12];
const REGION: u32 = 1;
const DTPATH: u32 = 2;
const DTINDEX: u32 = 3;
const INTERRUPT: u32 = 4;

/// The types that stand inside a REGION.
const INSIDE: [u32; 5] = [2, 3, 5, 6, 7];

/// A record before it is written down.
#[derive(Clone)]
struct Record {
    kind: u32,
    content: Vec<u8>,
    inside: Vec<Record>,
    /// Bytes behind its sub-records that are no record, and count as its own.
    left_over: Vec<u8>,
    length: Length,
}

/// What a record's length field says.
#[derive(Clone, Copy)]
enum Length {
    Right,
    Off(i64),
    Lie(u32),
    /// So that start + length is a multiple of 2^32, and a few bytes more.
    Wraps(u32),
}

impl Record {
    fn good(kind: u32, random: &mut Random) -> Record {
        Record {
            kind,
            content: content(kind, random),
            inside: Vec::new(),
            left_over: Vec::new(),
            length: Length::Right,
        }
    }

    fn write(&self, bytes: &mut Vec<u8>) {
        let start = bytes.len();
        bytes.extend(self.kind.to_le_bytes());
        bytes.extend([0; 4]);
        bytes.extend(&self.content);
        for record in &self.inside {
            record.write(bytes);
        }
        bytes.extend(&self.left_over);
        let right = (bytes.len() - start) as u32;
        let length = match self.length {
            Length::Right => right,
            Length::Off(by) => (i64::from(right) + by) as u32,
            Length::Lie(length) => length,
            Length::Wraps(more) => (start as u32).wrapping_neg().wrapping_add(more),
        };
        bytes[start + 4..start + 8].copy_from_slice(&length.to_le_bytes());
    }
}

/// A good content.
fn content(kind: u32, random: &mut Random) -> Vec<u8> {
    if kind == DTPATH {
        let length = random.pick(&[0, 0, 1, 4, 7, 8, 9, 30, 230]);
        return random.bytes(length);
    }
    let mut content = random.bytes(SIZES[kind as usize - 1]);
    if kind == DTINDEX {
        content[..4].copy_from_slice(&(random.from(1, 4) as u32).to_le_bytes());
    }
    content
}

fn region(most: u64, random: &mut Random) -> Record {
    let mut region = Record::good(REGION, random);
    for _ in 0..random.below(most + 1) {
        let kind = random.pick(&INSIDE);
        region.inside.push(Record::good(kind, random));
    }
    region
}

/// Records that stand outside, good ones.
fn records(random: &mut Random) -> Vec<Record> {
    let count = if random.one_in(40) {
        random.from(100, 400)
    } else {
        random.pick(&[0, 1, 1, 2, 3, 5])
    };
    (0..count)
        .map(|_| {
            if random.one_in(3) {
                Record::good(INTERRUPT, random)
            } else {
                region(4, random)
            }
        })
        .collect()
}

fn written(records: &[Record], random: &mut Random) -> Vec<u8> {
    let mut bytes = random.bytes(12);
    bytes[..4].copy_from_slice(&random.pick(&MAGICS).to_le_bytes());
    for record in records {
        record.write(&mut bytes);
    }
    bytes
}

/// A path so long that the file has about as many bytes as a file may have.
fn lengthen(records: &mut Vec<Record>, random: &mut Random) {
    let length = random.pick(&[65_535, 65_536, 65_536, 65_537, 65_600]);
    let bytes = written(records, random).len();
    let mut last = region(0, random);
    let mut path = Record::good(DTPATH, random);
    path.content = vec![0x2f; length - bytes - 28 - 8];
    last.inside.push(path);
    records.push(last);
}

/// A file with up to three faults.
pub fn file(random: &mut Random) -> Vec<u8> {
    let mut records = records(random);
    for _ in 0..random.pick(&[0, 0, 1, 1, 1, 1, 2, 3]) {
        spoil(&mut records, random);
    }
    if random.one_in(60) {
        lengthen(&mut records, random);
    }
    let mut bytes = written(&records, random);
    match random.below(30) {
        0..=2 => bytes.truncate(random.below(bytes.len() as u64 + 1) as usize),
        3 => {
            let count = random.from(1, 9) as usize;
            bytes.extend(random.bytes(count));
        }
        4 => {
            let at = random.below(bytes.len() as u64) as usize;
            bytes[at] = random.byte();
        }
        5 => {
            let bit = random.below(32);
            bytes[bit as usize / 8] ^= 1 << (bit % 8);
        }
        6 => bytes.truncate(random.below(13) as usize),
        _ => {}
    }
    bytes
}

/// One of the records, outside or inside.
fn any_record<'r>(records: &'r mut [Record], random: &mut Random) -> Option<&'r mut Record> {
    if records.is_empty() {
        return None;
    }
    let at = random.below(records.len() as u64) as usize;
    let record = &mut records[at];
    if record.inside.is_empty() || random.one_in(3) {
        return Some(record);
    }
    let at = random.below(record.inside.len() as u64) as usize;
    Some(&mut record.inside[at])
}

/// A REGION among those outside.
fn any_region<'r>(records: &'r mut [Record], random: &mut Random) -> Option<&'r mut Record> {
    let regions = records.iter().filter(|r| r.kind == REGION).count() as u64;
    let nth = random.below(regions.max(1)) as usize;
    records.iter_mut().filter(|r| r.kind == REGION).nth(nth)
}

/// Breaks one rule, or goes to the edge of one.
fn spoil(records: &mut Vec<Record>, random: &mut Random) {
    match random.below(14) {
        // Records at the wrong level.
        0 => {
            let record = Record::good(random.pick(&INSIDE), random);
            let at = random.below(records.len() as u64 + 1) as usize;
            records.insert(at, record);
        }
        1 | 2 => {
            let record = if random.one_in(2) {
                Record::good(INTERRUPT, random)
            } else {
                region(1, random)
            };
            if let Some(region) = any_region(records, random) {
                let at = random.below(region.inside.len() as u64 + 1) as usize;
                region.inside.insert(at, record);
            }
        }
        // Bytes that are no record.
        3 | 4 => {
            let count = random.from(1, 8) as usize;
            let left_over = random.bytes(count);
            if let Some(region) = any_region(records, random) {
                region.left_over = left_over;
            }
        }
        // What a REGION counts of what follows.
        5 => {
            let by = random.pick(&[-28, -16, -8, -1, 1, 3, 7, 8, 16, 28]);
            if let Some(region) = any_region(records, random) {
                region.length = Length::Off(by);
            }
        }
        6 => {
            let length = random.pick(&[0, 7, 8, 12, 20, 27, 28, 29, 35, 36]);
            if let Some(region) = any_region(records, random) {
                region.length = Length::Lie(length);
            }
        }
        7 => {
            let kind = random.pick(&[0, 8, 9, 255, 256 + 4, 1 << 16, 1 << 31, u32::MAX]);
            let length = random.pick(&[Length::Right, Length::Lie(u32::MAX)]);
            if let Some(record) = any_record(records, random) {
                (record.kind, record.length) = (kind, length);
            }
        }
        8 => {
            let kind = random.from(1, 7) as u32;
            let length = random.pick(&[Length::Right, Length::Lie(u32::MAX)]);
            if let Some(record) = any_record(records, random) {
                (record.kind, record.length) = (kind, length);
            }
        }
        9 => {
            let length = match random.below(4) {
                0 => Length::Lie(random.pick(&[u32::MAX, 1 << 31, 70_000, 65_536, 500])),
                1 => Length::Wraps(random.pick(&[0, 12, 16, 28, 100])),
                2 => Length::Lie(random.below(40) as u32),
                _ => Length::Off(random.pick(&[-4, -1, 1, 4])),
            };
            if let Some(record) = any_record(records, random) {
                record.length = length;
            }
        }
        10 => {
            let byte = random.byte();
            if let Some(record) = any_record(records, random) {
                record.content.push(byte);
            }
        }
        11 => {
            if let Some(record) = any_record(records, random) {
                record.content.pop();
            }
        }
        _ => {
            let property: u32 = random.pick(&[0, 5, 0x100, 1 << 24, u32::MAX, 4, 1]);
            let mut index = Record::good(DTINDEX, random);
            index.content[..4].copy_from_slice(&property.to_le_bytes());
            if let Some(region) = any_region(records, random) {
                region.inside.push(index);
            }
        }
    }
}

/// A start of a file, and its buffer.
pub fn start(random: &mut Random) -> (FileCall, Vec<u8>) {
    let magic = match random.below(4) {
        0 => random.number() as u32,
        1 => random.pick(&MAGICS) ^ 1 << random.below(32),
        _ => random.pick(&MAGICS),
    };
    let call = FileCall::Start {
        magic,
        version: random.number() as u32,
        flags: random.number() as u32,
    };
    let length = match random.below(20) {
        0 => random.pick(&[65_536, 65_537, 70_000]),
        1..=5 => random.below(13) as usize,
        6..=9 => 12,
        _ => random.from(12, 80) as usize,
    };
    (call, random.bytes(length))
}

/// An append, and the buffer with the file that it goes to. Mostly all but one thing is in order.
pub fn append(random: &mut Random) -> (FileCall, Vec<u8>) {
    let mut bytes = if random.one_in(4) {
        file(random)
    } else {
        let mut records = records(random);
        // Sub-records go to a REGION that stands last.
        if !random.one_in(4) {
            records.push(region(3, random));
        }
        if random.one_in(60) {
            lengthen(&mut records, random);
        }
        written(&records, random)
    };
    let mut kind = random.from(1, 7) as u32;
    let mut content = content(kind, random);
    match random.below(12) {
        0 => kind = random.pick(&[0, 8, 9, 256 + 1, 1 << 31, u32::MAX]),
        1 => content.push(0),
        2 => {
            content.pop();
        }
        3 => content.clear(),
        4 => kind = random.from(1, 7) as u32,
        5 if kind == DTINDEX => {
            let property: u32 = random.pick(&[0, 5, 0x100, u32::MAX]);
            content[..4].copy_from_slice(&property.to_le_bytes());
        }
        6 if random.one_in(5) => {
            kind = DTPATH;
            let most = LONGEST.saturating_sub(bytes.len() + 8);
            content = vec![0x61; most + random.pick(&[0, 0, 1])];
        }
        _ => {}
    }
    let used = match random.below(16) {
        0 => random.below(bytes.len() as u64 + 1) as usize,
        _ => bytes.len(),
    };
    let record = 8 + content.len();
    let room = match random.below(10) {
        0..=2 => record,
        3 => record - 1,
        4 => random.below(record as u64) as usize,
        5 => record + 1,
        6 if random.one_in(4) => random
            .pick(&[65_536usize, 65_537, 70_000])
            .saturating_sub(used),
        _ => record + random.below(64) as usize,
    };
    // The longest files are often to be just as long as may be.
    let room = if used + room > LONGEST && random.one_in(2) {
        LONGEST.saturating_sub(used)
    } else {
        room
    };
    bytes.truncate(used);
    bytes.extend(random.bytes(room));
    let used = match random.below(24) {
        0 => bytes.len() + random.from(1, 3) as usize,
        1 if random.one_in(2) => usize::MAX - random.below(20) as usize,
        _ => used,
    };
    let call = FileCall::Append {
        used,
        kind,
        content,
    };
    (call, bytes)
}
