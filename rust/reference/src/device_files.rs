//! Device files of the old layout: a header of 12 bytes, then records, some of them inside others.
//!
//! A record is type (4), length of the whole record (4), and its content. That of a REGION is 20
//! bytes, behind which its sub-records stand.

use crate::answer::{refuse_if, Answer, Refusal};
use crate::bench::LENGTH_LIMIT;
use crate::bytes::{number_at, put_number};

pub const PCI: u64 = 0x7063_6900;
pub const DT: u64 = 0x6474_0000;

pub const REGION: u64 = 1;
pub const DTPATH: u64 = 2;
pub const DTINDEX: u64 = 3;
pub const INTERRUPT: u64 = 4;
pub const PCI_CONFIG_SPACE: u64 = 5;
pub const PCI_BAR_INDEX: u64 = 6;
pub const PHYS_ADDR: u64 = 7;

/// Bytes before the first record: magic 0..4, version 4..8, flags 8..12.
pub const FILE_HEADER: usize = 12;
/// Bytes of a record before its content: type 0..4, length 4..8.
pub const RECORD_HEADER: usize = 8;

/// Where a record stands.
#[derive(Clone, Copy, Debug, PartialEq, Eq)]
enum Level {
    Outside,
    InRegion,
}

/// What the content of a type may be.
#[derive(Clone, Copy)]
enum Size {
    Exactly(u64),
    Any,
}

/// Where a type stands, and the bytes of its content (of a REGION, before its sub-records).
fn layout(kind: u64) -> Option<(Level, Size)> {
    match kind {
        REGION => Some((Level::Outside, Size::Exactly(20))), // flags 4, offset 8, len 8
        DTPATH => Some((Level::InRegion, Size::Any)),
        DTINDEX => Some((Level::InRegion, Size::Exactly(8))), // property 4, index 4
        INTERRUPT => Some((Level::Outside, Size::Exactly(8))), // flags 4, handle 4
        PCI_CONFIG_SPACE => Some((Level::InRegion, Size::Exactly(4))), // flags 4
        PCI_BAR_INDEX => Some((Level::InRegion, Size::Exactly(8))), // flags 4, index 4
        PHYS_ADDR => Some((Level::InRegion, Size::Exactly(12))), // flags 4, address 8
        _ => None,
    }
}

fn is_magic(magic: u64) -> bool {
    magic == PCI || magic == DT
}

/// 1 "reg", 2 "ranges", 3 "interrupts", 4 "interrupt-map".
fn is_property(number: u64) -> bool {
    (1..=4).contains(&number)
}

/// A record as it is handed out.
#[derive(Clone, Copy, Debug, PartialEq, Eq)]
pub struct Record {
    pub kind: u64,
    pub start: usize,
    /// Where its content begins, and how many bytes it has.
    pub content_start: usize,
    pub content_length: usize,
}

/// All that is read of a file.
#[derive(Clone, Debug, PartialEq, Eq)]
pub struct DeviceFile {
    pub magic: u64,
    pub version: u64,
    pub flags: u64,
    /// In file order, sub-records behind their REGION.
    pub records: Vec<Record>,
}

/// Judges a whole file.
pub fn read_device_file(file: &[u8]) -> Answer<DeviceFile> {
    refuse_if(file.len() > LENGTH_LIMIT, Refusal::TooLong)?;
    refuse_if(file.len() < FILE_HEADER, Refusal::Truncated.at(0))?;
    let magic = number_at(file, 0, 4);
    refuse_if(!is_magic(magic), Refusal::Magic.at(0))?;
    let mut records = Vec::new();
    read_room(file, FILE_HEADER, file.len(), Level::Outside, &mut records)?;
    Ok(DeviceFile {
        magic,
        version: number_at(file, 4, 4),
        flags: number_at(file, 8, 4),
        records,
    })
}

/// The records that fill a room: the file behind its header, or a REGION behind its fixed part.
fn read_room(
    file: &[u8],
    from: usize,
    to: usize,
    level: Level,
    records: &mut Vec<Record>,
) -> Answer<()> {
    let mut start = from;
    while start < to {
        let place = start as u64;
        let left = (to - start) as u64;
        refuse_if(left < RECORD_HEADER as u64, Refusal::Truncated.at(place))?;
        let kind = number_at(file, start, 4);
        let length = number_at(file, start + 4, 4);
        let (stands, size) = layout(kind).ok_or(Refusal::UnknownPart.at(place))?;
        refuse_if(stands != level, Refusal::Header.at(place))?;
        refuse_if(length > left, Refusal::Truncated.at(place))?;
        refuse_if(!fits(kind, size, length), Refusal::Value.at(place))?;
        let content_start = start + RECORD_HEADER;
        if kind == DTINDEX {
            let property = number_at(file, content_start, 4);
            refuse_if(!is_property(property), Refusal::Value.at(place))?;
        }
        let end = start + length as usize;
        let content_length = match size {
            Size::Exactly(count) => count as usize,
            Size::Any => end - content_start,
        };
        records.push(Record {
            kind,
            start,
            content_start,
            content_length,
        });
        if kind == REGION {
            read_room(
                file,
                content_start + content_length,
                end,
                Level::InRegion,
                records,
            )?;
        }
        start = end;
    }
    Ok(())
}

/// Whether a length field is one that the type may have. What a REGION has behind its fixed part
/// is judged record by record.
fn fits(kind: u64, size: Size, length: u64) -> bool {
    let header = RECORD_HEADER as u64;
    match size {
        Size::Exactly(count) if kind == REGION => length >= header + count,
        Size::Exactly(count) => length == header + count,
        Size::Any => length >= header,
    }
}

/// Record `n` of a file, the first being 0; nothing where there are no more than `n`.
pub fn read_device_record(file: &[u8], n: u64) -> Answer<Option<Record>> {
    let records = read_device_file(file)?.records;
    Ok(usize::try_from(n)
        .ok()
        .and_then(|n| records.get(n).copied()))
}

/// Starts a file in a buffer; gives how many bytes are in use.
pub fn start_device_file(buffer: &mut [u8], magic: u64, version: u64, flags: u64) -> Answer<usize> {
    refuse_if(buffer.len() > LENGTH_LIMIT, Refusal::TooLong)?;
    refuse_if(!is_magic(magic), Refusal::Magic)?;
    refuse_if(buffer.len() < FILE_HEADER, Refusal::NoSpace)?;
    put_number(buffer, 0, 4, magic);
    put_number(buffer, 4, 4, version);
    put_number(buffer, 8, 4, flags);
    Ok(FILE_HEADER)
}

/// Appends a record behind the bytes in use; gives how many are in use then.
pub fn append_device_record(
    buffer: &mut [u8],
    used: usize,
    kind: u64,
    content: &[u8],
) -> Answer<usize> {
    refuse_if(buffer.len() > LENGTH_LIMIT, Refusal::TooLong)?;
    refuse_if(used > buffer.len(), Refusal::Truncated.at(0))?;
    let file = read_device_file(&buffer[..used])?;
    let (stands, size) = layout(kind).ok_or(Refusal::UnknownPart)?;
    let region = last_region(&file);
    refuse_if(
        stands == Level::InRegion && region.is_none(),
        Refusal::Header,
    )?;
    if let Size::Exactly(count) = size {
        refuse_if(content.len() as u64 != count, Refusal::Value)?;
    }
    if kind == DTINDEX {
        let property = number_at(content, 0, 4);
        refuse_if(!is_property(property), Refusal::Value)?;
    }
    let length = (RECORD_HEADER + content.len()) as u64;
    let end = used + RECORD_HEADER + content.len();
    refuse_if(end > buffer.len(), Refusal::NoSpace)?;
    put_number(buffer, used, 4, kind);
    put_number(buffer, used + 4, 4, length);
    buffer[used + RECORD_HEADER..end].copy_from_slice(content);
    if let (Level::InRegion, Some(region)) = (stands, region) {
        let grown = number_at(buffer, region + 4, 4) + length;
        put_number(buffer, region + 4, 4, grown);
    }
    Ok(end)
}

/// Where the last record that stands outside begins, if that is a REGION.
fn last_region(file: &DeviceFile) -> Option<usize> {
    let stands_outside =
        |record: &&Record| layout(record.kind).is_some_and(|(level, _)| level == Level::Outside);
    let last = file.records.iter().rev().find(stands_outside)?;
    (last.kind == REGION).then_some(last.start)
}

#[cfg(test)]
mod tests {
    use super::*;
    use crate::answer::Refused;

    /// A record with its length.
    fn record(kind: u32, content: &[u8]) -> Vec<u8> {
        let length = (RECORD_HEADER + content.len()) as u32;
        [&kind.to_le_bytes()[..], &length.to_le_bytes(), content].concat()
    }

    /// A REGION around sub-records.
    fn region(inside: &[u8]) -> Vec<u8> {
        record(1, &[&[9; 20][..], inside].concat())
    }

    /// A file of these records.
    fn file(records: &[&[u8]]) -> Vec<u8> {
        let header = [0x00, 0x69, 0x63, 0x70, 1, 0, 0, 0, 2, 0, 0, 0];
        [&header[..], &records.concat()].concat()
    }

    fn refused(file: &[u8]) -> Refused {
        read_device_file(file).unwrap_err()
    }

    #[test]
    fn a_file_gives_its_header_and_its_records_in_order() {
        let bar = record(6, &[0; 8]);
        let path = record(2, b"/soc");
        let bytes = file(&[
            &region(&[bar, path].concat()),
            &record(4, &[0; 8]),
            &region(&[]),
        ]);
        let read = read_device_file(&bytes).unwrap();
        assert_eq!((read.magic, read.version, read.flags), (PCI, 1, 2));
        let found: Vec<_> = read
            .records
            .iter()
            .map(|r| (r.kind, r.start, r.content_start, r.content_length))
            .collect();
        let expected = [
            (1, 12, 20, 20),
            (6, 40, 48, 8),
            (2, 56, 64, 4),
            (4, 68, 76, 8),
            (1, 84, 92, 20),
        ];
        assert_eq!(found, expected);
        assert_eq!(
            read_device_record(&bytes, 4).unwrap(),
            Some(read.records[4])
        );
        assert_eq!(read_device_record(&bytes, 5).unwrap(), None);
        assert_eq!(read_device_record(&bytes, u64::MAX).unwrap(), None);
    }

    #[test]
    fn the_header_comes_first() {
        assert_eq!(refused(&vec![0; 65_537]), Refusal::TooLong.at(0));
        assert_eq!(refused(&[]), Refusal::Truncated.at(0));
        assert_eq!(refused(&[0xff; 11]), Refusal::Truncated.at(0));
        assert_eq!(refused(&[0xff; 12]), Refusal::Magic.at(0));
        let mut dt = file(&[]);
        dt[..4].copy_from_slice(&[0, 0, 0x74, 0x64]);
        assert_eq!(read_device_file(&dt).unwrap().magic, DT);
    }

    /// Type and level are judged before the length, and the length past the room before its own rule.
    #[test]
    fn checks_of_a_record_come_in_order() {
        let with_length = |kind: u32, length: u32| {
            let mut record = record(kind, &[0; 8]);
            record[4..8].copy_from_slice(&length.to_le_bytes());
            refused(&file(&[&record]))
        };
        assert_eq!(with_length(8, u32::MAX), Refusal::UnknownPart.at(12));
        assert_eq!(with_length(0, 16), Refusal::UnknownPart.at(12));
        assert_eq!(with_length(2, u32::MAX), Refusal::Header.at(12));
        assert_eq!(with_length(4, u32::MAX), Refusal::Truncated.at(12));
        assert_eq!(with_length(4, 17), Refusal::Truncated.at(12));
        assert_eq!(with_length(4, 15), Refusal::Value.at(12));
        assert_eq!(with_length(4, 0), Refusal::Value.at(12));
        assert_eq!(with_length(1, 16), Refusal::Value.at(12));
        assert_eq!(with_length(1, 28), Refusal::Truncated.at(12));
        assert_eq!(
            refused(&file(&[&[4, 0, 0, 0, 16, 0, 0]])),
            Refusal::Truncated.at(12)
        );
    }

    /// The room around a sub-record is its REGION, whatever follows that.
    #[test]
    fn a_region_is_the_room_of_its_records() {
        let behind = record(4, &[0; 8]);
        let three = file(&[&region(&[1, 2, 3]), &behind]);
        assert_eq!(refused(&three), Refusal::Truncated.at(40));
        let mut long = record(2, b"abc");
        long[4] = 12;
        let long = file(&[&region(&long), &behind]);
        assert_eq!(refused(&long), Refusal::Truncated.at(40));
        let inner = file(&[&region(&region(&[])), &behind]);
        assert_eq!(refused(&inner), Refusal::Header.at(40));
        let inner = file(&[&region(&behind)]);
        assert_eq!(refused(&inner), Refusal::Header.at(40));
    }

    #[test]
    fn properties_are_1_to_4() {
        for property in 0..6 {
            let index = record(3, &[property, 0, 0, 0, 0xff, 0xff, 0xff, 0xff]);
            let read = read_device_file(&file(&[&region(&index)]));
            let good = (1..=4).contains(&property);
            assert_eq!(read.err(), (!good).then(|| Refusal::Value.at(40)));
        }
    }

    #[test]
    fn starting_tries_the_buffer_the_magic_and_the_room() {
        let mut buffer = [0xee; 13];
        assert_eq!(start_device_file(&mut buffer, DT, 1, 2), Ok(12));
        assert_eq!(buffer[..4], [0, 0, 0x74, 0x64]);
        assert_eq!(buffer[4..], [1, 0, 0, 0, 2, 0, 0, 0, 0xee]);
        let start = |length: usize, magic| {
            let mut buffer = vec![0xee; length];
            start_device_file(&mut buffer, magic, 0, 0).unwrap_err()
        };
        assert_eq!(start(65_537, 0), Refusal::TooLong.at(0));
        assert_eq!(start(11, 0), Refusal::Magic.at(0));
        assert_eq!(start(11, PCI), Refusal::NoSpace.at(0));
    }

    #[test]
    fn what_is_appended_reads_back() {
        let mut buffer = [0xee; 100];
        let mut used = start_device_file(&mut buffer, PCI, 1, 2).unwrap();
        let records: [(u64, &[u8]); 4] = [(1, &[9; 20]), (2, b"ab"), (5, &[7; 4]), (4, &[3; 8])];
        for (kind, content) in records {
            used = append_device_record(&mut buffer, used, kind, content).unwrap();
        }
        let inside = [record(2, b"ab"), record(5, &[7; 4])].concat();
        let expected = file(&[&region(&inside), &record(4, &[3; 8])]);
        assert_eq!(buffer[..used], expected);
        assert!(buffer[used..].iter().all(|byte| *byte == 0xee));
    }

    #[test]
    fn appending_tries_its_checks_in_order() {
        let try_append = |length: usize, bytes: &[u8], used, kind, content: &[u8]| {
            let mut buffer = vec![0xee; length];
            let copied = bytes.len().min(length);
            buffer[..copied].copy_from_slice(&bytes[..copied]);
            let before = buffer.clone();
            let refused = append_device_record(&mut buffer, used, kind, content).unwrap_err();
            assert_eq!(buffer, before);
            refused
        };
        let empty = file(&[]);
        assert_eq!(
            try_append(65_537, &empty, 65_538, 8, &[]),
            Refusal::TooLong.at(0)
        );
        assert_eq!(try_append(12, &empty, 13, 8, &[]), Refusal::Truncated.at(0));
        assert_eq!(try_append(12, &empty, 11, 8, &[]), Refusal::Truncated.at(0));
        assert_eq!(try_append(12, &[0; 12], 12, 8, &[]), Refusal::Magic.at(0));
        let wrong = file(&[&region(&[1, 2, 3])]);
        assert_eq!(
            try_append(50, &wrong, 43, 8, &[]),
            Refusal::Truncated.at(40)
        );
        assert_eq!(
            try_append(12, &empty, 12, 8, &[]),
            Refusal::UnknownPart.at(0)
        );
        assert_eq!(
            try_append(12, &empty, 12, 5, &[0; 5]),
            Refusal::Header.at(0)
        );
        let closed = file(&[&region(&[]), &record(4, &[0; 8])]);
        assert_eq!(try_append(99, &closed, 56, 2, b""), Refusal::Header.at(0));
        let open = file(&[&region(&[])]);
        assert_eq!(try_append(40, &open, 40, 5, &[0; 5]), Refusal::Value.at(0));
        assert_eq!(try_append(40, &open, 40, 3, &[0; 8]), Refusal::Value.at(0));
        assert_eq!(
            try_append(40, &open, 40, 3, &[1, 0, 0]),
            Refusal::Value.at(0)
        );
        assert_eq!(try_append(47, &open, 40, 2, b""), Refusal::NoSpace.at(0));
        assert_eq!(
            try_append(51, &open, 40, 5, &[0; 4]),
            Refusal::NoSpace.at(0)
        );
    }
}
