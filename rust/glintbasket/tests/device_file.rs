//! Device files of the old layout: read and written, on bytes whose answers are known.

use glintbasket::device_file::{self, Content, Header, Property, Record};
use glintbasket::{raw, DeviceFile, DeviceFileWriter, Error, Refusal};

const HEADER: Header = Header {
    magic: device_file::MAGIC_PCI,
    version: 1,
    flags: 0xffff_ffff,
};

/// The answer of a refused call.
fn refused<T>(refusal: Refusal, place: u64) -> Result<T, Error> {
    Err(Error { refusal, place })
}

/// A record with the length that its bytes make.
fn record(kind: u32, bytes: &[u8]) -> Vec<u8> {
    record_of_length(kind, 8 + bytes.len() as u32, bytes)
}

fn record_of_length(kind: u32, length: u32, bytes: &[u8]) -> Vec<u8> {
    [&kind.to_le_bytes()[..], &length.to_le_bytes(), bytes].concat()
}

/// A REGION around these records.
fn region(inside: &[Vec<u8>]) -> Vec<u8> {
    record(1, &[vec![0x11; 20], inside.concat()].concat())
}

/// A file of these records.
fn file(records: &[Vec<u8>]) -> Vec<u8> {
    let header = [0, 0x69, 0x63, 0x70, 1, 0, 0, 0, 0xff, 0xff, 0xff, 0xff];
    [header.to_vec(), records.concat()].concat()
}

/// What parsing gives, without the file.
fn parsed(bytes: &[u8]) -> Result<u64, Error> {
    DeviceFile::parse(bytes).map(|file| file.record_count())
}

/// One record of each type, and what each content says.
fn contents() -> [Content<'static>; 8] {
    [
        Content::Region {
            flags: 1,
            offset: 1 << 40,
            length: 0x4000,
        },
        Content::PciBarIndex { flags: 0, index: 2 },
        Content::PhysAddr {
            flags: 5,
            address: 0xfedc_ba98_7654_3210,
        },
        Content::Interrupt {
            flags: 0,
            handle: u32::MAX,
        },
        Content::Region {
            flags: 0,
            offset: 7 << 40,
            length: 0x100,
        },
        Content::PciConfigSpace { flags: 3 },
        Content::DtPath(b"/soc"),
        Content::DtIndex {
            property: Property::InterruptMap,
            index: 9,
        },
    ]
}

/// A file of these.
fn written(contents: &[Content]) -> Vec<u8> {
    let mut buffer = [0xa5; 400];
    let mut writer = DeviceFileWriter::start(&mut buffer, HEADER).unwrap();
    for content in contents {
        writer.append_content(content).unwrap();
    }
    writer.bytes().to_vec()
}

#[test]
fn what_is_written_reads_back() {
    let contents = contents();
    for count in 0..=contents.len() {
        let bytes = written(&contents[..count]);
        let file = DeviceFile::parse(&bytes).unwrap();
        assert_eq!(file.header(), HEADER);
        assert_eq!(file.record_count(), count as u64);
        let found: Vec<_> = file.records().map(|r| r.content().unwrap()).collect();
        assert_eq!(found, contents[..count]);
    }
    let bytes = written(&contents);
    let file = DeviceFile::parse(&bytes).unwrap();
    let starts: Vec<_> = file.records().map(|r| (r.kind, r.start)).collect();
    let expected = [
        (1, 12),
        (6, 40),
        (7, 56),
        (4, 76),
        (1, 92),
        (5, 120),
        (2, 132),
        (3, 144),
    ];
    assert_eq!(starts, expected);
    let inside: Vec<_> = file.records().map(|r| r.is_sub_record()).collect();
    assert_eq!(inside, [false, true, true, false, false, true, true, true]);
}

#[test]
fn what_is_read_writes_back() {
    let bytes = written(&contents());
    let file = DeviceFile::parse(&bytes).unwrap();
    let mut buffer = vec![0xa5; bytes.len()];
    let mut writer = DeviceFileWriter::start(&mut buffer, file.header()).unwrap();
    for record in file.records() {
        writer.append(record.kind, record.bytes).unwrap();
    }
    assert_eq!(buffer, bytes);
}

/// The bytes of each type, once written out.
#[test]
fn fields_are_packed() {
    let [bar, index, address, interrupt, ..] = contents();
    let bytes = written(&[bar, index, address, interrupt]);
    let expected = [
        vec![0x00, 0x69, 0x63, 0x70, 1, 0, 0, 0, 0xff, 0xff, 0xff, 0xff],
        vec![1, 0, 0, 0, 64, 0, 0, 0, 1, 0, 0, 0],
        vec![0, 0, 0, 0, 0, 1, 0, 0, 0, 0x40, 0, 0, 0, 0, 0, 0],
        vec![6, 0, 0, 0, 16, 0, 0, 0, 0, 0, 0, 0, 2, 0, 0, 0],
        vec![7, 0, 0, 0, 20, 0, 0, 0, 5, 0, 0, 0],
        vec![0x10, 0x32, 0x54, 0x76, 0x98, 0xba, 0xdc, 0xfe],
        vec![4, 0, 0, 0, 16, 0, 0, 0, 0, 0, 0, 0, 0xff, 0xff, 0xff, 0xff],
    ];
    assert_eq!(bytes, expected.concat());
}

#[test]
fn the_header_is_judged_first() {
    assert_eq!(parsed(&vec![0; 65_537]), refused(Refusal::TooLong, 0));
    assert_eq!(parsed(&[]), refused(Refusal::Truncated, 0));
    assert_eq!(parsed(&[0; 11]), refused(Refusal::Truncated, 0));
    assert_eq!(parsed(&[0; 12]), refused(Refusal::Magic, 0));
    assert_eq!(parsed(&file(&[])), Ok(0));
    let mut dt = file(&[]);
    dt[..4].copy_from_slice(&device_file::MAGIC_DT.to_le_bytes());
    assert_eq!(
        DeviceFile::parse(&dt).unwrap().header().magic,
        device_file::MAGIC_DT
    );
}

#[test]
fn each_record_is_judged_in_order() {
    let alone = |kind, length| parsed(&file(&[record_of_length(kind, length, &[0; 8])]));
    assert_eq!(alone(8, u32::MAX), refused(Refusal::UnknownPart, 12));
    assert_eq!(alone(0, 16), refused(Refusal::UnknownPart, 12));
    assert_eq!(alone(2, u32::MAX), refused(Refusal::Header, 12));
    assert_eq!(alone(4, u32::MAX), refused(Refusal::Truncated, 12));
    assert_eq!(alone(4, 15), refused(Refusal::Value, 12));
    assert_eq!(alone(4, 0), refused(Refusal::Value, 12));
    assert_eq!(alone(1, 16), refused(Refusal::Value, 12));
    assert_eq!(alone(1, 28), refused(Refusal::Truncated, 12));
    assert_eq!(alone(4, 16), Ok(1));
    let cut = file(&[vec![4, 0, 0, 0, 16, 0, 0]]);
    assert_eq!(parsed(&cut), refused(Refusal::Truncated, 12));
}

/// What stands in a REGION is judged by the REGION's end, and not by the file's.
#[test]
fn a_region_is_the_room_of_its_records() {
    let interrupt = record(4, &[0; 8]);
    for left in 1..8 {
        let bytes = file(&[region(&[vec![0; left]]), interrupt.clone()]);
        assert_eq!(parsed(&bytes), refused(Refusal::Truncated, 40), "{left}");
    }
    let long = record_of_length(2, 12, b"abc");
    let bytes = file(&[region(&[long]), interrupt.clone()]);
    assert_eq!(parsed(&bytes), refused(Refusal::Truncated, 40));
    let bytes = file(&[region(&[interrupt.clone()])]);
    assert_eq!(parsed(&bytes), refused(Refusal::Header, 40));
    let bytes = file(&[region(&[region(&[])])]);
    assert_eq!(parsed(&bytes), refused(Refusal::Header, 40));
    let bytes = file(&[region(&[]), record(5, &[0; 4])]);
    assert_eq!(parsed(&bytes), refused(Refusal::Header, 40));
    let bytes = file(&[region(&[record(2, b"")]), interrupt, region(&[])]);
    assert_eq!(parsed(&bytes), Ok(4));
}

#[test]
fn lengths_and_properties() {
    let inside = |record: Vec<u8>| parsed(&file(&[region(&[record])]));
    for (kind, size) in [(3, 8), (5, 4), (6, 8), (7, 12)] {
        let bytes = [1, 0, 0, 0, 0, 0, 0, 0, 0, 0, 0, 0, 0, 0];
        assert_eq!(inside(record(kind, &bytes[..size])), Ok(2));
        for wrong in [0, size - 1, size + 1] {
            let found = inside(record(kind, &bytes[..wrong]));
            assert_eq!(found, refused(Refusal::Value, 40), "{kind}, {wrong}");
        }
    }
    for length in [0, 1, 5, 40_000] {
        assert_eq!(inside(record(2, &vec![0xff; length])), Ok(2));
    }
    assert_eq!(
        inside(record_of_length(2, 7, b"")),
        refused(Refusal::Value, 40)
    );
    for property in [0, 5, 0x101, u32::MAX] {
        let bytes = [property.to_le_bytes(), [0; 4]].concat();
        assert_eq!(inside(record(3, &bytes)), refused(Refusal::Value, 40));
        assert_eq!(Property::from_number(property), None);
    }
    for property in 1..=4 {
        let known = Property::from_number(property).unwrap();
        assert_eq!(known.number(), property);
    }
    assert_eq!(Property::InterruptMap.name(), "interrupt-map");
}

#[test]
fn records_have_names() {
    assert_eq!(device_file::kind_name(0), None);
    assert_eq!(device_file::kind_name(1), Some("REGION"));
    assert_eq!(device_file::kind_name(7), Some("PHYS_ADDR"));
    assert_eq!(device_file::kind_name(8), None);
    for content in contents() {
        assert!(device_file::kind_name(content.kind()).is_some());
    }
}

/// A record that no file handed out may have any bytes.
#[test]
fn a_content_without_its_bytes_is_none() {
    for kind in 0..9 {
        let bytes = &[][..];
        let record = Record {
            kind,
            start: 0,
            bytes,
        };
        let expected = (kind == 2).then_some(Content::DtPath(b""));
        assert_eq!(record.content(), expected);
    }
}

#[test]
fn a_record_past_the_end_is_none() {
    let bytes = file(&[record(4, &[0; 8])]);
    let file = DeviceFile::parse(&bytes).unwrap();
    assert_eq!(file.record(0).map(|r| r.start), Some(12));
    for n in [1, 2, 1 << 32, u64::MAX] {
        assert_eq!(file.record(n), None);
    }
    assert_eq!(file.bytes(), bytes);
}

#[test]
fn starting_is_refused() {
    let start = |length: usize, magic| {
        let mut buffer = vec![0xa5; length];
        let header = Header { magic, ..HEADER };
        let found = DeviceFileWriter::start(&mut buffer, header).map(|_| ());
        if found.is_err() {
            assert!(buffer.iter().all(|byte| *byte == 0xa5));
        }
        found
    };
    assert_eq!(start(65_537, 0), refused(Refusal::TooLong, 0));
    assert_eq!(start(11, 0), refused(Refusal::Magic, 0));
    assert_eq!(start(11, HEADER.magic), refused(Refusal::NoSpace, 0));
    assert_eq!(start(12, HEADER.magic), Ok(()));
    assert_eq!(start(65_536, HEADER.magic), Ok(()));
}

/// An append to a file in a buffer with so much room; if it is refused, the buffer stays.
fn append(bytes: &[u8], room: usize, kind: u32, content: &[u8]) -> Result<(usize, Vec<u8>), Error> {
    let mut buffer = bytes.to_vec();
    buffer.resize(room, 0xa5);
    let before = buffer.clone();
    let mut writer = DeviceFileWriter::resume(&mut buffer, bytes.len());
    let found = writer.append(kind, content);
    let used = writer.bytes().len();
    if found.is_err() {
        assert_eq!(buffer, before);
    }
    found.map(|()| (used, buffer))
}

#[test]
fn appending_is_refused_in_order() {
    let empty = file(&[]);
    let open = file(&[region(&[])]);
    let closed = file(&[region(&[]), record(4, &[0; 8])]);
    let wrong = file(&[region(&[vec![0; 3]])]);
    for (bytes, room, kind, content, refusal, place) in [
        (&empty, 65_537, 8, &[][..], Refusal::TooLong, 0),
        (&wrong, 42, 8, &[], Refusal::Truncated, 0),
        (&vec![0; 11], 20, 8, &[], Refusal::Truncated, 0),
        (&vec![0; 12], 20, 8, &[], Refusal::Magic, 0),
        (&wrong, 43, 8, &[], Refusal::Truncated, 40),
        (&empty, 12, 8, &[], Refusal::UnknownPart, 0),
        (&empty, 12, 5, &[0; 5], Refusal::Header, 0),
        (&closed, 99, 2, b"/", Refusal::Header, 0),
        (&open, 40, 5, &[0; 5], Refusal::Value, 0),
        (&open, 40, 3, &[5, 0, 0, 0, 0, 0, 0, 0], Refusal::Value, 0),
        (&open, 40, 1, &[0; 19], Refusal::Value, 0),
        (&open, 51, 5, &[0; 4], Refusal::NoSpace, 0),
        (&open, 47, 2, b"", Refusal::NoSpace, 0),
    ] {
        let found = append(bytes, room, kind, content).map(|_| ());
        assert_eq!(found, refused(refusal, place), "{kind} in {room}");
    }
}

/// A sub-record grows its REGION; a REGION and an INTERRUPT do not. Bytes behind the record stay.
#[test]
fn an_append_writes_its_record_and_one_length() {
    let open = file(&[region(&[]), region(&[])]);
    let (used, buffer) = append(&open, 100, 5, &[7; 4]).unwrap();
    let expected = file(&[region(&[]), region(&[record(5, &[7; 4])])]);
    assert_eq!(used, 80);
    assert_eq!(buffer[..used], expected);
    assert_eq!(buffer[used..], [0xa5; 20]);
    let (used, buffer) = append(&open, 84, 4, &[7; 8]).unwrap();
    assert_eq!(buffer[..used], [&open[..], &record(4, &[7; 8])].concat());
    let (used, buffer) = append(&open, 96, 1, &[0x11; 20]).unwrap();
    assert_eq!(buffer[..used], [&open[..], &region(&[])].concat());
}

#[test]
fn raw_answers_have_zeros_where_they_have_no_use_for_a_field() {
    let header = raw::read_device_file(&[0; 12]);
    assert_eq!((header.outcome.code, header.outcome.place), (33, 0));
    assert_eq!((header.magic, header.version, header.flags), (0, 0, 0));
    let bytes = file(&[record(4, &[0; 8])]);
    let header = raw::read_device_file(&bytes);
    assert_eq!((header.outcome.refused, header.outcome.result), (false, 1));
    let one = raw::read_device_record(&bytes, 0);
    assert_eq!((one.outcome.refused, one.outcome.result), (false, 0));
    assert_eq!((one.end, one.kind, one.start), (false, 4, 12));
    assert_eq!((one.content_start, one.content_length), (20, 8));
    for (bytes, end) in [(&bytes[..], true), (&bytes[..27], false)] {
        let none = raw::read_device_record(bytes, 1);
        assert_eq!((none.outcome.refused, none.end), (!end, end));
        assert_eq!((none.outcome.result, none.kind, none.start), (0, 0, 0));
        assert_eq!((none.content_start, none.content_length), (0, 0));
    }
    let written = raw::append_device_record(&mut [0; 12], 12, 1, &[]);
    assert_eq!((written.outcome.code, written.used), (33, 0));
    let written = raw::start_device_file(&mut [0; 12], HEADER.magic, 0, 0);
    assert_eq!((written.outcome.result, written.used), (0, 12));
}
