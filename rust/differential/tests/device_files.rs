//! Device files on the emulator, its twin and the second program: every small change of a file, every
//! type and length, every append; and that a wrong reader or writer would be found.

use glint_differential::device_files::{
    compare, faithful_file, run_files, FileAnswer, FileCall, FileCoverage, FileDifference,
    FileTamper, Given,
};

const OTHER: u8 = 0x5a;

/// What all say of a call.
fn agreed(call: &FileCall, bytes: &[u8]) -> (FileAnswer, Vec<u8>) {
    compare(call, bytes, OTHER, faithful_file).unwrap_or_else(|fault| {
        panic!("{call} on {bytes:02x?}: {fault}");
    })
}

/// The refusal of a file, or 0; for its first records, too.
fn refusal(bytes: &[u8]) -> u32 {
    let (answer, _) = agreed(&FileCall::Read, bytes);
    for n in [0, 1, 2] {
        agreed(&FileCall::Record { n }, bytes);
    }
    answer.outcome().code
}

fn record(kind: u32, content: &[u8]) -> Vec<u8> {
    let length = 8 + content.len() as u32;
    [&kind.to_le_bytes()[..], &length.to_le_bytes(), content].concat()
}

fn region(inside: &[Vec<u8>]) -> Vec<u8> {
    record(1, &[vec![0x11; 20], inside.concat()].concat())
}

fn file(records: &[Vec<u8>]) -> Vec<u8> {
    let header = [0, 0x69, 0x63, 0x70, 1, 0, 0, 0, 0, 0, 0, 0];
    [header.to_vec(), records.concat()].concat()
}

/// A file with every type of record.
fn every_type() -> Vec<u8> {
    file(&[
        region(&[record(6, &[0; 8]), record(7, &[0x22; 12]), record(2, b"/a")]),
        record(4, &[3; 8]),
        region(&[]),
        region(&[
            record(5, &[7; 4]),
            record(2, b""),
            record(3, &[4, 0, 0, 0, 9, 0, 0, 0]),
        ]),
    ])
}

#[test]
fn beginnings_of_a_file() {
    let bytes = every_type();
    let good = (0..=bytes.len()).filter(|length| refusal(&bytes[..*length]) == 0);
    // Behind the header and behind each of the four records outside.
    assert_eq!(good.count(), 5);
}

/// Each byte, changed to every other.
#[test]
fn damaged_files() {
    let bytes = every_type();
    let mut seen = std::collections::BTreeSet::new();
    for at in 0..bytes.len() {
        for byte in 0..=255 {
            let mut damaged = bytes.clone();
            damaged[at] = byte;
            seen.insert(refusal(&damaged));
        }
    }
    assert_eq!(
        seen.into_iter().collect::<Vec<_>>(),
        [0, 18, 19, 20, 22, 33]
    );
}

/// Every type with every length, outside and inside, with more or fewer bytes behind it.
#[test]
fn types_and_lengths() {
    let far = [
        65_535,
        65_536,
        1 << 31,
        u32::MAX - 12,
        u32::MAX - 11,
        u32::MAX,
    ];
    for kind in 0..10u32 {
        for length in (0..48).chain(far) {
            for left in [0, 1, 7, 8, 15, 16, 20, 28, 40] {
                let mut record = [&kind.to_le_bytes()[..], &length.to_le_bytes()].concat();
                record.extend(vec![1; left]);
                refusal(&file(&[record.clone()]));
                refusal(&file(&[region(&[record.clone()])]));
                // Behind a REGION, and in one with a record behind it.
                refusal(&file(&[region(&[]), record.clone()]));
                refusal(&file(&[region(&[record]), self::record(4, &[0; 8])]));
            }
        }
    }
}

/// A REGION of every length around the same bytes.
#[test]
fn regions_of_every_length() {
    let inside = [record(2, b"/a"), record(5, &[0; 4])];
    let rest = [record(4, &[0; 8]), region(&[])];
    let mut good = 0;
    for length in 0..120u32 {
        let mut bytes = file(&[region(&inside), rest.concat()]);
        bytes[16..20].copy_from_slice(&length.to_le_bytes());
        good += u32::from(refusal(&bytes) == 0);
    }
    assert_eq!(good, 1);
}

/// Every type and length of content, to files that end in each way, with room and without.
#[test]
fn appends() {
    let files = [
        file(&[]),
        file(&[region(&[])]),
        file(&[region(&[record(2, b"/a")])]),
        file(&[record(4, &[0; 8])]),
        file(&[region(&[]), record(4, &[0; 8])]),
        file(&[record(4, &[0; 8]), region(&[])]),
        file(&[region(&[]), region(&[record(5, &[0; 4])])]),
        file(&[region(&[vec![0; 3]])]),
    ];
    let mut done = 0;
    for bytes in &files {
        for kind in 0..9 {
            for size in 0..24usize {
                for first in [0, 1, 4, 5] {
                    let mut content = vec![0; size];
                    if let Some(byte) = content.first_mut() {
                        *byte = first;
                    }
                    for room in [0, 7, size + 7, size + 8, size + 9] {
                        let mut buffer = bytes.clone();
                        buffer.resize(bytes.len() + room, 0xa5);
                        let call = FileCall::Append {
                            used: bytes.len(),
                            kind,
                            content: content.clone(),
                        };
                        let (answer, _) = agreed(&call, &buffer);
                        done += u32::from(!answer.outcome().refused);
                    }
                }
            }
        }
    }
    assert!(done > 900, "{done}");
}

/// Every number of bytes in use of a buffer that holds a file.
#[test]
fn bytes_in_use() {
    let bytes = every_type();
    let past = [bytes.len() + 1, 1 << 32, usize::MAX];
    for used in (0..=bytes.len()).chain(past) {
        for kind in [1, 2, 8] {
            let content = vec![0; if kind == 1 { 20 } else { 0 }];
            let call = FileCall::Append {
                used,
                kind,
                content,
            };
            agreed(&call, &bytes);
        }
    }
}

/// The longest buffers, and one byte more.
#[test]
fn the_limit() {
    for length in [65_535usize, 65_536, 65_537] {
        let path = vec![0x61; length - 12 - 28 - 8];
        let whole = file(&[region(&[record(2, &path)])]);
        assert_eq!(whole.len(), length);
        assert_eq!(refusal(&whole), if length > 65_536 { 13 } else { 0 });
        let start = FileCall::Start {
            magic: 0x7063_6900,
            version: 1,
            flags: 2,
        };
        agreed(&start, &vec![0xa5; length]);
        let mut buffer = file(&[region(&[])]);
        buffer.resize(length, 0xa5);
        for content in [path.clone(), [&path[..], &[0]].concat()] {
            let append = FileCall::Append {
                used: 40,
                kind: 2,
                content,
            };
            agreed(&append, &buffer);
        }
    }
    // As many records as a file can have: 4,095 INTERRUPTs are 65,532 bytes with the header.
    let many = file(&vec![record(4, &[0; 8]); 4_095]);
    assert_eq!(refusal(&many), 0);
    for n in [4_094, 4_095] {
        agreed(&FileCall::Record { n }, &many);
    }
}

// ---- a wrong emulator is found

fn first_difference(tamper: FileTamper) -> FileDifference {
    let mut coverage = FileCoverage::default();
    (1..400)
        .find_map(|seed| run_files(seed, tamper, &mut coverage).err())
        .expect("the change is found")
}

#[test]
fn the_emulator_and_the_second_program_agree() {
    let mut coverage = FileCoverage::default();
    for seed in 0x1000..0x1200 {
        if let Err(difference) = run_files(seed, faithful_file, &mut coverage) {
            panic!("{}", difference.report());
        }
    }
    assert!(coverage.calls > 10_000);
}

fn number(bytes: &[u8], at: usize) -> u32 {
    u32::from_le_bytes(bytes[at..at + 4].try_into().unwrap())
}

/// The last record outside of a file that reads well: where it begins.
fn last_outside(bytes: &[u8]) -> Option<usize> {
    let mut last = None;
    let mut start = 12;
    while start < bytes.len() {
        last = Some(start);
        start += number(bytes, start + 4) as usize;
    }
    last
}

/// The record outside around a place before which all reads well: where it begins, and ends.
fn around(bytes: &[u8], place: usize) -> Option<(usize, usize)> {
    let mut start = 12;
    while start < place {
        let end = start + number(bytes, start + 4) as usize;
        if place < end {
            return Some((start, end));
        }
        start = end;
    }
    None
}

/// As if bytes left over in a REGION were a wrong length of the REGION.
#[test]
fn bytes_left_over_that_are_22_are_found() {
    let difference = first_difference(|given, answer, _| {
        let outcome = answer.outcome();
        let place = outcome.place as usize;
        if *given.call == FileCall::Read && outcome.code == 18 {
            if let Some((start, end)) = around(given.bytes, place) {
                if end - place < 8 {
                    return answer.refused_with(22, start as u64);
                }
            }
        }
        answer
    });
    let (_, bytes) = difference.shortened();
    assert!(bytes.len() <= 100, "{}", difference.report());
    assert!(difference.report().contains("seed 0x"));
}

/// As if the room around a sub-record were the file.
#[test]
fn a_length_that_is_held_against_the_file_is_found() {
    first_difference(|given, answer, _| {
        let outcome = answer.outcome();
        let place = outcome.place as usize;
        if *given.call == FileCall::Read && outcome.code == 18 {
            if let Some((_, end)) = around(given.bytes, place) {
                let fits = |length: u32| length as usize <= given.bytes.len() - place;
                if end - place >= 8 && fits(number(given.bytes, place + 4)) {
                    return answer.refused_with(19, end as u64);
                }
            }
        }
        answer
    });
}

#[test]
fn a_length_before_a_type_is_found() {
    let difference = first_difference(|given, answer, _| {
        let outcome = answer.outcome();
        let place = outcome.place as usize;
        let read = *given.call == FileCall::Read && outcome.code == 20;
        if read && number(given.bytes, place + 4) as usize > given.bytes.len() - place {
            return answer.refused_with(18, outcome.place);
        }
        answer
    });
    let (_, bytes) = difference.shortened();
    assert_eq!(bytes.len(), 20, "{}", difference.report());
}

#[test]
fn a_wrong_count_of_records_is_found() {
    let difference = first_difference(|_, answer, _| match answer {
        FileAnswer::Read(mut header) if header.outcome.result > 1 => {
            header.outcome.result -= 1;
            FileAnswer::Read(header)
        }
        other => other,
    });
    assert_eq!(difference.call, FileCall::Read);
}

/// A REGION's content with its sub-records.
#[test]
fn a_content_with_sub_records_is_found() {
    let difference = first_difference(|given, answer, _| match answer {
        FileAnswer::Record(mut record) if record.kind == 1 => {
            record.content_length = number(given.bytes, record.start + 4) as usize - 8;
            FileAnswer::Record(record)
        }
        other => other,
    });
    let (_, bytes) = difference.shortened();
    assert!(bytes.len() <= 100, "{}", difference.report());
}

#[test]
fn a_field_that_is_not_cleared_is_found() {
    first_difference(|given, answer, _| match (given.call, answer) {
        (FileCall::Append { used, .. }, FileAnswer::Written(mut written)) => {
            if written.outcome.refused {
                written.used = *used;
            }
            FileAnswer::Written(written)
        }
        (_, other) => other,
    });
}

/// An append that was accepted, of a sub-record.
fn appended(given: &Given, answer: &FileAnswer) -> Option<usize> {
    match (given.call, answer) {
        (FileCall::Append { used, kind, .. }, FileAnswer::Written(written)) => {
            let sub = !matches!(kind, 1 | 4);
            (!written.outcome.refused && sub).then_some(*used)
        }
        _ => None,
    }
}

#[test]
fn a_region_that_does_not_grow_is_found() {
    let difference = first_difference(|given, answer, bytes| {
        if let Some(used) = appended(given, &answer) {
            let region = last_outside(&given.bytes[..used]).unwrap();
            bytes[region + 4..region + 8].copy_from_slice(&given.bytes[region + 4..region + 8]);
        }
        answer
    });
    assert!(difference.fault.contains("byte"), "{}", difference.report());
}

/// The first REGION of the file in place of the last.
#[test]
fn another_region_that_grows_is_found() {
    first_difference(|given, answer, bytes| {
        if let Some(used) = appended(given, &answer) {
            let last = last_outside(&given.bytes[..used]).unwrap();
            if last > 12 && given.bytes[12] == 1 {
                bytes[last + 4..last + 8].copy_from_slice(&given.bytes[last + 4..last + 8]);
                bytes[16] = bytes[16].wrapping_add(bytes[used + 4]);
            }
        }
        answer
    });
}

/// A sub-record behind an INTERRUPT, as if some REGION would do.
#[test]
fn a_missing_19_is_found() {
    let difference = first_difference(|given, answer, _| match given.call {
        FileCall::Append { used, .. } if answer.outcome().code == 19 => {
            let open = given
                .bytes
                .get(12..*used)
                .is_some_and(|file| !file.is_empty());
            match open && answer.outcome().place == 0 {
                true => answer.refused_with(27, 0),
                false => answer,
            }
        }
        _ => answer,
    });
    assert!(difference.fault.contains("answers"));
}

/// The type is written before 27 is decided.
#[test]
fn a_write_before_27_is_found() {
    let difference = first_difference(|given, answer, bytes| {
        if let (FileCall::Append { used, kind, .. }, 27) = (given.call, answer.outcome().code) {
            if bytes.len() > used + 4 {
                bytes[*used..used + 4].copy_from_slice(&kind.to_le_bytes());
            }
        }
        answer
    });
    let (_, bytes) = difference.shortened();
    assert!(bytes.len() <= 30, "{}", difference.report());
}

#[test]
fn a_byte_behind_the_record_that_changes_is_found() {
    first_difference(|_, answer, bytes| {
        if let FileAnswer::Written(written) = answer {
            if let (false, Some(byte)) = (written.outcome.refused, bytes.get_mut(written.used)) {
                *byte = 0;
            }
        }
        answer
    });
}

/// As if the bytes in use were read on: what stands behind them decides.
#[test]
fn a_look_behind_the_bytes_in_use_is_found() {
    first_difference(|given, answer, _| match given.call {
        FileCall::Append { used, .. } if given.bytes.get(*used) == Some(&4) => {
            answer.refused_with(18, *used as u64)
        }
        _ => answer,
    });
}

#[test]
fn a_start_without_13_is_found() {
    first_difference(|given, answer, _| match (given.call, answer) {
        (FileCall::Start { .. }, FileAnswer::Written(mut written)) => {
            if written.outcome.code == 13 {
                written.outcome.code = 33;
            }
            FileAnswer::Written(written)
        }
        (_, other) => other,
    });
}
