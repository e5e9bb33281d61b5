//! Says in words what a device file of the old layout has, or what is wrong with it.

use glintbasket::device_file::{
    kind_name, Content, Property, DTINDEX, DTPATH, FILE_HEADER, LIMIT, MAGIC_DT, MAGIC_PCI,
    PCI_CONFIG_SPACE, PHYS_ADDR, RECORD_HEADER, REGION,
};
use glintbasket::{DeviceFile, Error, Refusal};
use std::io::{self, Write};

/// Prints the header and every record, or why there are none. Whether it is a device file.
pub fn print(out: &mut impl Write, bytes: &[u8]) -> io::Result<bool> {
    match DeviceFile::parse(bytes) {
        Ok(file) => print_file(out, &file).map(|()| true),
        Err(error) => {
            let why = why(bytes, error);
            writeln!(out, "no device file: {error}: {why}").map(|()| false)
        }
    }
}

fn print_file(out: &mut impl Write, file: &DeviceFile) -> io::Result<()> {
    let header = file.header();
    let (version, flags) = (header.version, header.flags);
    let (bus, count) = (bus(header.magic), file.record_count());
    let records = if count == 1 { "record" } else { "records" };
    writeln!(
        out,
        "device file ({bus}): version {version}, flags {flags:#x}, {count} {records}"
    )?;
    for record in file.records() {
        let indent = if record.is_sub_record() { "  " } else { "" };
        let (start, name) = (record.start, name(record.kind));
        let length = number(file.bytes(), start + 4);
        let fields = fields(record.content().expect("the file reads well"));
        writeln!(out, "{indent}{start}: {name}, {length} bytes: {fields}")?;
    }
    Ok(())
}

fn bus(magic: u32) -> &'static str {
    if magic == MAGIC_PCI {
        "pci"
    } else {
        "dt"
    }
}

fn name(kind: u32) -> &'static str {
    kind_name(kind).unwrap_or("?")
}

fn fields(content: Content) -> String {
    match content {
        Content::Region {
            flags,
            offset,
            length,
        } => format!("flags {flags:#x}, offset {offset:#x}, length {length:#x}"),
        Content::DtPath(path) => format!("path \"{}\"", path.escape_ascii()),
        Content::DtIndex { property, index } => {
            let (number, name) = (property.number(), property.name());
            format!("property {number} ({name}), index {index}")
        }
        Content::Interrupt { flags, handle } => format!("flags {flags:#x}, handle {handle}"),
        Content::PciConfigSpace { flags } => format!("flags {flags:#x}"),
        Content::PciBarIndex { flags, index } => format!("flags {flags:#x}, index {index}"),
        Content::PhysAddr { flags, address } => format!("flags {flags:#x}, address {address:#x}"),
    }
}

/// The number in four bytes, of which as many are there.
fn number(bytes: &[u8], at: usize) -> u32 {
    let four = bytes[at..at + 4].try_into().expect("four bytes");
    u32::from_le_bytes(four)
}

/// What a refusal of a file means.
fn why(bytes: &[u8], error: Error) -> String {
    let length = bytes.len();
    let place = error.place as usize;
    match error.refusal {
        Refusal::TooLong => format!("it has {length} bytes, and may have {LIMIT}"),
        Refusal::Magic => {
            let magic = number(bytes, 0);
            format!("its magic is {magic:#x}, and not {MAGIC_PCI:#x} (pci) or {MAGIC_DT:#x} (dt)")
        }
        Refusal::Truncated if length < FILE_HEADER => {
            format!("it has {length} bytes, and its header alone has {FILE_HEADER}")
        }
        _ => why_of_record(bytes, place, error.refusal),
    }
}

fn why_of_record(bytes: &[u8], place: usize, refusal: Refusal) -> String {
    let room = Room::around(bytes, place);
    let (left, around) = (room.end - place, room.name());
    if left < RECORD_HEADER {
        return format!(
            "{left} bytes are left in {around}, and a record begins with {RECORD_HEADER}"
        );
    }
    let (kind, length) = (number(bytes, place), number(bytes, place + 4));
    let name = name(kind);
    match refusal {
        Refusal::UnknownPart => format!("no record has type {kind}"),
        Refusal::Header if room.region.is_some() => format!("{name} stands inside a REGION"),
        Refusal::Header => format!("{name} stands outside a REGION"),
        Refusal::Truncated => {
            format!("{name} has length {length}, and {left} bytes are left in {around}")
        }
        // Its length is right, so that its property is not.
        _ if kind == DTINDEX && length == 16 => {
            let property = number(bytes, place + RECORD_HEADER);
            format!(
                "{name} has property {property}, and not 1 to {}",
                Property::InterruptMap.number()
            )
        }
        _ => format!("{name} has length {length}, and not {}", needed(kind)),
    }
}

/// The length of a type's records.
fn needed(kind: u32) -> &'static str {
    match kind {
        REGION => "28 or more",
        DTPATH => "8 or more",
        PCI_CONFIG_SPACE => "12",
        PHYS_ADDR => "20",
        _ => "16",
    }
}

/// What a record must end in: a REGION, or the file.
struct Room {
    /// Where the REGION begins.
    region: Option<usize>,
    end: usize,
}

impl Room {
    /// The room around a place, all before which reads well.
    fn around(bytes: &[u8], place: usize) -> Room {
        let mut start = FILE_HEADER;
        while start < place {
            let end = start + number(bytes, start + 4) as usize;
            if place < end {
                let region = Some(start);
                return Room { region, end };
            }
            start = end;
        }
        Room {
            region: None,
            end: bytes.len(),
        }
    }

    fn name(&self) -> String {
        match self.region {
            Some(start) => format!("the REGION at {start}"),
            None => "the file".to_string(),
        }
    }
}

#[cfg(test)]
mod tests {
    use super::*;

    fn record(kind: u32, length: u32, content: &[u8]) -> Vec<u8> {
        [&kind.to_le_bytes()[..], &length.to_le_bytes(), content].concat()
    }

    fn file(records: &[Vec<u8>]) -> Vec<u8> {
        let header = [0, 0, 0x74, 0x64, 1, 0, 0, 0, 0, 0, 0, 0];
        [header.to_vec(), records.concat()].concat()
    }

    fn printed(bytes: &[u8]) -> (bool, String) {
        let mut out = Vec::new();
        let good = print(&mut out, bytes).unwrap();
        (good, String::from_utf8(out).unwrap())
    }

    #[test]
    fn every_record_is_a_line() {
        let region = record(1, 28 + 14 + 16 + 12 + 16 + 20, &[0x11; 20]);
        let inside = [
            record(2, 14, b"/a \"\xff\n"),
            record(3, 16, &[4, 0, 0, 0, 9, 0, 0, 0]),
            record(5, 12, &[7, 0, 0, 0]),
            record(6, 16, &[0, 0, 0, 0x80, 2, 0, 0, 0]),
            record(7, 20, &[0, 0, 0, 0, 0, 0x10, 0, 0, 0, 0, 0, 0]),
        ];
        let interrupt = record(4, 16, &[1, 0, 0, 0, 0xff, 0xff, 0xff, 0xff]);
        let bytes = file(&[region, inside.concat(), interrupt]);
        let expected = "\
device file (dt): version 1, flags 0x0, 7 records
12: REGION, 106 bytes: flags 0x11111111, offset 0x1111111111111111, length 0x1111111111111111
  40: DTPATH, 14 bytes: path \"/a \\\"\\xff\\n\"
  54: DTINDEX, 16 bytes: property 4 (interrupt-map), index 9
  70: PCI_CONFIG_SPACE, 12 bytes: flags 0x7
  82: PCI_BAR_INDEX, 16 bytes: flags 0x80000000, index 2
  98: PHYS_ADDR, 20 bytes: flags 0x0, address 0x1000
118: INTERRUPT, 16 bytes: flags 0x1, handle 4294967295
";
        assert_eq!(printed(&bytes), (true, expected.to_string()));
        let one = file(&[record(4, 16, &[0; 8])]);
        let first = "device file (dt): version 1, flags 0x0, 1 record\n";
        assert!(printed(&one).1.starts_with(first));
    }

    #[test]
    fn a_fault_is_told_in_words() {
        let told = |bytes: &[u8], expected: &str| {
            let (good, text) = printed(bytes);
            assert_eq!(text, format!("no device file: refused {expected}\n"));
            assert!(!good);
        };
        told(
            &vec![0; 65537],
            "13 TooLong at 0: it has 65537 bytes, and may have 65536",
        );
        told(
            &[],
            "18 Truncated at 0: it has 0 bytes, and its header alone has 12",
        );
        told(
            &[1; 12],
            "33 Magic at 0: its magic is 0x1010101, and not 0x70636900 (pci) or 0x64740000 (dt)",
        );
        let after = |record: Vec<u8>, expected| {
            let interrupt = super::tests::record(4, 16, &[0; 8]);
            told(&file(&[interrupt, record]), expected);
        };
        after(
            vec![4; 7],
            "18 Truncated at 28: 7 bytes are left in the file, and a record begins with 8",
        );
        after(
            record(8, 0, &[]),
            "20 UnknownPart at 28: no record has type 8",
        );
        after(
            record(5, 12, &[0; 4]),
            "19 Header at 28: PCI_CONFIG_SPACE stands outside a REGION",
        );
        after(
            record(4, 17, &[0; 8]),
            "18 Truncated at 28: INTERRUPT has length 17, and 16 bytes are left in the file",
        );
        after(
            record(4, 15, &[0; 8]),
            "22 Value at 28: INTERRUPT has length 15, and not 16",
        );
        after(
            record(1, 27, &[0; 20]),
            "22 Value at 28: REGION has length 27, and not 28 or more",
        );
        let inside = |record: Vec<u8>, expected| {
            let length = 28 + record.len() as u32;
            let content = [vec![0; 20], record].concat();
            after(super::tests::record(1, length, &content), expected);
        };
        inside(
            vec![0; 3],
            "18 Truncated at 56: 3 bytes are left in the REGION at 28, and a record begins with 8",
        );
        inside(
            record(4, 16, &[0; 8]),
            "19 Header at 56: INTERRUPT stands inside a REGION",
        );
        inside(
            record(2, 9, &[]),
            "18 Truncated at 56: DTPATH has length 9, and 8 bytes are left in the REGION at 28",
        );
        inside(
            record(2, 7, &[]),
            "22 Value at 56: DTPATH has length 7, and not 8 or more",
        );
        inside(
            record(5, 16, &[0; 8]),
            "22 Value at 56: PCI_CONFIG_SPACE has length 16, and not 12",
        );
        inside(
            record(7, 12, &[0; 8]),
            "22 Value at 56: PHYS_ADDR has length 12, and not 20",
        );
        inside(
            record(3, 16, &[5, 0, 0, 0, 0, 0, 0, 0]),
            "22 Value at 56: DTINDEX has property 5, and not 1 to 4",
        );
        inside(
            record(3, 12, &[5, 0, 0, 0, 0, 0, 0, 0]),
            "22 Value at 56: DTINDEX has length 12, and not 16",
        );
    }
}
