//! Power on, and the moves of bytes.

mod common;

use common::{bench, refused, GARBAGE, PAGE};
use glintbasket::{
    marks_len, Bench, Card, DeviceAddress, Error, IommuType, Location, LookUpError, Mapping,
    MemoryAddress, OwnedBench, Refusal, Result, Rights, DEFAULT_RECORDS, DEVICE_LIMIT,
    MEMORY_LIMIT, RECORDS_LIMIT, TRANSFER_LIMIT,
};

// ---- making a bench

#[test]
fn new_clears_marks_and_keeps_bytes() {
    let mut memory = [GARBAGE; 100];
    let mut marks = [0xff; 13];
    let bench = Bench::new(&mut memory, &mut marks).unwrap();
    assert_eq!(bench.memory(), [GARBAGE; 100]);
    assert_eq!(bench.marks()[..12], [0; 12]);
    assert_eq!(bench.marks()[12], 0xf0);
    assert_eq!(bench.mappings(), []);
    assert!(!bench.is_running());
    assert_eq!(bench.state().memory_length, 100);
}

#[test]
fn new_refuses_a_mark_byte_more_or_less_and_leaves_the_marks() {
    let mut memory = [0; 100];
    for length in [0, 12, 14, 100] {
        let mut marks = vec![1; length];
        assert_eq!(
            Bench::new(&mut memory, &mut marks).map(drop),
            refused(Refusal::BadBench, 0)
        );
        assert_eq!(marks, vec![1; length]);
    }
    for length in 0..=100 {
        let mut marks = vec![0; marks_len(length)];
        assert!(Bench::new(&mut memory[..length], &mut marks).is_ok());
    }
}

/// Rule 7.23: no call changes the bits past the end.
#[test]
fn bits_past_the_end_are_kept() {
    let (mut memory, mut marks) = ([GARBAGE; 11], [0xff, 0xff]);
    let mut bench = Bench::new(&mut memory, &mut marks).unwrap();
    assert_eq!(bench.marks(), [0x00, 0xf8]);
    bench.host_write(MemoryAddress(7), b"ab").unwrap();
    assert_eq!(bench.marks(), [0x80, 0xf9]);
    let written = |address| bench.is_written(MemoryAddress(address));
    assert_eq!([6, 7, 8, 9].map(written), [false, true, true, false]);
    assert_eq!([11, 15, 16, u64::MAX].map(written), [false; 4]);
    bench.host_write(MemoryAddress(0), &[1; 11]).unwrap();
    assert_eq!(bench.marks(), [0xff, 0xff]);
    bench.invalidate(MemoryAddress(0), 11).unwrap();
    assert_eq!(bench.marks(), [0x00, 0xf8]);
}

#[test]
fn lent_memory_has_what_was_written_when_the_bench_is_gone() {
    let mut memory = [0; 4];
    let mut marks = [0; 1];
    let mut bench = Bench::new(&mut memory, &mut marks).unwrap();
    bench.host_write(MemoryAddress(1), b"xy").unwrap();
    assert_eq!(&memory, b"\0xy\0");
    assert_eq!(marks, [0b0110]);
}

#[test]
fn with_memory_refuses_more_than_the_limit() {
    // Zeros, so that the pages of this memory are never touched.
    let memory = vec![0; MEMORY_LIMIT + 1];
    assert_eq!(
        OwnedBench::with_memory(memory).map(drop),
        refused(Refusal::BadBench, 0)
    );
}

#[test]
fn bench_without_memory_moves_no_bytes() {
    let mut bench = OwnedBench::with_memory(Vec::new()).unwrap();
    assert_eq!(bench.host_write(MemoryAddress(0), &[]), Ok(()));
    assert_eq!(bench.host_read(MemoryAddress(0), &mut []), Ok(()));
    assert_eq!(bench.device_write(DeviceAddress(0), &[]), Ok(()));
    assert_eq!(
        bench.host_write(MemoryAddress(0), b"x"),
        refused(Refusal::Range, 0)
    );
}

/// A record that nobody put to use.
const STALE: Mapping = Mapping {
    device: DeviceAddress(u64::MAX),
    memory: MemoryAddress(7),
    size: 1,
    rights: Rights(9),
};

fn page_at(device: u64) -> Mapping {
    Mapping {
        device: DeviceAddress(device),
        memory: MemoryAddress(0),
        size: PAGE,
        rights: Rights::READ,
    }
}

fn map_page(bench: &mut Bench, device: u64) -> Result<()> {
    bench.map(MemoryAddress(0), DeviceAddress(device), PAGE, Rights::READ)
}

#[test]
fn resume_goes_on_from_a_state_with_other_records() {
    let mut memory = [GARBAGE; PAGE as usize];
    let mut marks = [0; marks_len(PAGE as usize)];
    let mut records = [STALE; 2];
    let mut bench = Bench::builder()
        .records(&mut records)
        .lend(&mut memory, &mut marks)
        .unwrap();
    map_page(&mut bench, 0).unwrap();
    map_page(&mut bench, PAGE).unwrap();
    assert_eq!(map_page(&mut bench, 2 * PAGE), refused(Refusal::NoRoom, 0));
    bench.host_write(MemoryAddress(7), b"!").unwrap();
    let state = *bench.state();

    // More records, of which the first are those in use.
    let mut more = [records[0], records[1], STALE];
    let mut bench = Bench::resume(state, &mut more, &mut memory, &mut marks);
    let mut byte = [0];
    assert_eq!(bench.device_read(DeviceAddress(7), &mut byte), Ok(()));
    assert_eq!(&byte, b"!");
    assert_eq!(map_page(&mut bench, 2 * PAGE), Ok(()));
    let state = *bench.state();
    assert_eq!(more[2], page_at(2 * PAGE));

    // Fewer than are in use.
    let bench = Bench::resume(state, &mut more[..2], &mut memory, &mut marks);
    assert_eq!(bench.mappings().len(), 2);
    assert_eq!(
        bench.look_up(DeviceAddress(0)),
        not_found(Refusal::BadBench, None)
    );
}

#[test]
fn resume_of_an_unsound_state_is_refused_by_every_call_but_power_on() {
    let (mut memory, mut marks, mut records) = ([0; 16], [0; 2], [STALE; 3]);
    let mut state = *Bench::new(&mut memory, &mut marks).unwrap().state();
    state.count = 4;
    let mut bench = Bench::resume(state, &mut records, &mut memory, &mut marks);
    assert_eq!(bench.mappings().len(), 3);
    assert_eq!(bench.stop(), refused(Refusal::BadBench, 0));
    assert_eq!(
        bench.look_up(DeviceAddress(0)),
        not_found(Refusal::BadBench, None)
    );
    assert_eq!(bench.api_version(), refused(Refusal::BadBench, 0));
    assert_eq!(bench.state().count, 4);
    assert_eq!(bench.power_on(), Ok(()));
    assert_eq!(bench.api_version(), Ok(0));
    assert_eq!(bench.records(), [STALE; 3]);
}

#[test]
fn resume_of_a_state_of_no_iommu_type_is_refused() {
    let (mut memory, mut marks) = ([0; 16], [0; 2]);
    let mut state = *Bench::new(&mut memory, &mut marks).unwrap().state();
    for number in [0, 2, 0x103, 0x0100_0001] {
        state.iommu_type = number;
        let mut bench = Bench::resume(state, &mut [], &mut memory, &mut marks);
        assert_eq!(bench.iommu_type(), None);
        assert_eq!(bench.start(), refused(Refusal::BadBench, 0));
        let set = bench.set_iommu(IommuType::Type1);
        assert_eq!(set, refused(Refusal::BadBench, 0));
        assert_eq!(bench.state().iommu_type, number);
        assert_eq!(bench.power_on(), Ok(()));
        assert_eq!(bench.iommu_type(), Some(IommuType::Type1v2));
    }
}

// ---- records

#[test]
fn a_bench_has_64_records_where_nothing_is_said() {
    assert_eq!(bench(1).records().len(), DEFAULT_RECORDS);
    let (mut memory, mut marks) = ([0; 8], [0]);
    let bench = Bench::with_card(&mut memory, &mut marks, Card::Features128).unwrap();
    assert_eq!(bench.records().len(), 64);
    assert_eq!(bench.card(), Some(Card::Features128));
}

#[test]
fn as_many_mappings_are_held_as_there_are_records() {
    for count in [0, 1, 63, 64, 65, RECORDS_LIMIT - 1, RECORDS_LIMIT] {
        let memory = vec![GARBAGE; PAGE as usize];
        let mut bench = Bench::builder().record_count(count).own(memory).unwrap();
        // Each goes below all others.
        for place in (0..count as u64).rev() {
            assert_eq!(map_page(&mut bench, place * PAGE), Ok(()));
        }
        assert_eq!(
            map_page(&mut bench, count as u64 * PAGE),
            refused(Refusal::NoRoom, 0)
        );
        assert_eq!(bench.mappings().len(), count);
        for place in 0..count {
            assert_eq!(bench.mappings()[place], page_at(place as u64 * PAGE));
        }
        assert_eq!(
            bench.unmap(DeviceAddress(0), DEVICE_LIMIT),
            Ok(count as u64 * PAGE)
        );
    }
}

#[test]
fn more_than_4096_records_are_refused() {
    for count in [RECORDS_LIMIT + 1, usize::MAX] {
        let made = Bench::builder().record_count(count).own(Vec::new());
        assert_eq!(made.map(drop), refused(Refusal::BadBench, 0));
    }
    let mut records = vec![STALE; RECORDS_LIMIT + 1];
    let made = Bench::builder().records(&mut records).own(Vec::new());
    assert_eq!(made.map(drop), refused(Refusal::BadBench, 0));
    assert!(records.iter().all(|record| *record == STALE));
}

/// Rule 8.16, under either type: what maps asked for, less what unmaps reported.
#[test]
fn mapped_bytes_are_those_mapped_less_those_unmapped() {
    for iommu_type in [IommuType::Type1, IommuType::Type1v2] {
        let mut bench = Bench::with_memory(vec![0; 8 * PAGE as usize]).unwrap();
        bench.set_iommu(iommu_type).unwrap();
        let (mut mapped, mut unmapped) = (0, 0);
        for (device, pages) in [(0, 2), (4, 1), (0, 1), (8, 3)] {
            let size = pages * PAGE;
            let done = bench.map(
                MemoryAddress(0),
                DeviceAddress(device * PAGE),
                size,
                Rights::READ,
            );
            mapped += done.map_or(0, |()| size);
            assert_eq!(bench.mapped_bytes(), mapped);
        }
        for (device, pages) in [(1, 4), (4, 5), (8, 3), (0, 16), (0, 16)] {
            let done = bench.unmap(DeviceAddress(device * PAGE), pages * PAGE);
            unmapped += done.unwrap_or(0);
            assert_eq!(bench.mapped_bytes(), mapped - unmapped);
        }
        assert_eq!((mapped, bench.mapped_bytes()), (6 * PAGE, 0));
    }
}

/// Rule 1.17: without the second and third of four, an unmap leaves the first, the fourth, the third and the fourth.
#[test]
fn records_past_the_count_keep_what_they_held() {
    let (mut memory, mut marks, mut records) = ([0; 4096], [0; 512], [STALE; 6]);
    let mut bench = Bench::builder()
        .records(&mut records)
        .lend(&mut memory, &mut marks)
        .unwrap();
    assert_eq!(bench.records(), [STALE; 6]);
    let [a, b, c, d] = [1, 2, 3, 4].map(|place| page_at(place * PAGE));
    for mapping in [c, a, d, b] {
        map_page(&mut bench, mapping.device.0).unwrap();
    }
    assert_eq!(bench.records(), [a, b, c, d, STALE, STALE]);
    assert_eq!(bench.unmap(b.device, 2 * PAGE), Ok(2 * PAGE));
    assert_eq!(bench.mappings(), [a, d]);
    assert_eq!(bench.records(), [a, d, c, d, STALE, STALE]);
    assert_eq!(
        bench.look_up(c.device),
        not_found(Refusal::Unmapped, Some(2))
    );
    bench.power_on().unwrap();
    assert_eq!(bench.mappings(), []);
    assert_eq!(records, [a, d, c, d, STALE, STALE]);
}

#[test]
fn power_on_forgets_all_but_the_bytes() {
    let mut bench = bench(1);
    bench
        .map(MemoryAddress(0), DeviceAddress(0), PAGE, Rights::READ)
        .unwrap();
    bench.host_write(MemoryAddress(3), b"x").unwrap();
    bench.start().unwrap();
    assert_eq!(bench.power_on(), Ok(()));
    assert_eq!(bench.mappings(), []);
    assert!(!bench.is_running());
    assert_eq!(bench.memory()[3], b'x');
    assert_eq!(
        bench.host_read(MemoryAddress(3), &mut [0]),
        refused(Refusal::Unwritten, 0)
    );
}

#[test]
fn memory_written_past_the_bench_is_unwritten() {
    let mut bench = bench(1);
    bench.memory_mut()[0] = 1;
    assert_eq!(bench.memory()[0], 1);
    assert_eq!(
        bench.host_read(MemoryAddress(0), &mut [0]),
        refused(Refusal::Unwritten, 0)
    );
}

#[test]
fn debug_tells_the_lengths_and_not_the_bytes() {
    let text = format!("{:?}", bench(1));
    assert_eq!(
        text,
        "Bench { memory_length: 4096, iommu_type: Some(Type1v2), mappings: [], running: false, .. }"
    );
}

// ---- look-up

#[test]
fn look_up_gives_address_rights_and_bytes_left() {
    let mut bench = bench(2);
    let both = Rights::READ | Rights::WRITE;
    let top = DEVICE_LIMIT - PAGE;
    bench
        .map(MemoryAddress(PAGE), DeviceAddress(top), PAGE, both)
        .unwrap();
    let found = bench.look_up(DeviceAddress(top + 7));
    let location = Location {
        address: MemoryAddress(PAGE + 7),
        rights: both,
        left: PAGE - 7,
        probes: 1,
    };
    assert_eq!(found, Ok(location));
}

/// Rule 4.11: a mapping ends where the next one adjoins it, also where memory goes on.
#[test]
fn look_up_counts_to_the_end_of_the_mapping_alone() {
    let mut bench = bench(3);
    for (address, size) in [(0, 2 * PAGE), (2 * PAGE, PAGE)] {
        let (memory, device) = (MemoryAddress(address), DeviceAddress(PAGE + address));
        bench.map(memory, device, size, Rights::READ).unwrap();
    }
    let left = |device| bench.look_up(DeviceAddress(device)).unwrap().left;
    let devices = [PAGE, PAGE + 1, 3 * PAGE - 1, 3 * PAGE, 4 * PAGE - 1];
    assert_eq!(devices.map(left), [2 * PAGE, 2 * PAGE - 1, 1, PAGE, 1]);
}

/// The answer of a look-up that is refused.
fn not_found(refusal: Refusal, probes: Option<u64>) -> std::result::Result<Location, LookUpError> {
    let place = 0;
    Err(LookUpError {
        refusal,
        place,
        probes,
    })
}

#[test]
fn look_up_refuses() {
    let bench = bench(1);
    assert_eq!(
        bench.look_up(DeviceAddress(0)),
        not_found(Refusal::Unmapped, Some(0))
    );
    assert_eq!(
        bench.look_up(DeviceAddress(DEVICE_LIMIT)),
        not_found(Refusal::Range, None)
    );
}

/// Rule 4.12, by the number of mappings held: what is looked at for the lowest one and below it, and for the highest one and above it.
#[test]
fn look_up_counts_the_mappings_that_it_looks_at() {
    let cases = [
        (1, 1, 1),
        (2, 2, 1),
        (3, 2, 2),
        (64, 7, 6),
        (65, 7, 6),
        (RECORDS_LIMIT as u64, 13, 12),
    ];
    for (held, lowest, highest) in cases {
        let memory = vec![GARBAGE; PAGE as usize];
        let mut bench = Bench::builder()
            .record_count(RECORDS_LIMIT)
            .own(memory)
            .unwrap();
        for page in 1..=held {
            map_page(&mut bench, page * PAGE).unwrap();
        }
        let at = |page| bench.look_up(DeviceAddress(page * PAGE));
        assert_eq!(at(0), not_found(Refusal::Unmapped, Some(lowest)));
        assert_eq!(at(held + 1), not_found(Refusal::Unmapped, Some(highest)));
        let probes = [1, held / 2 + 1, held].map(|page| at(page).unwrap().probes);
        assert_eq!(probes, [lowest, 1, highest], "{held} held");
    }
}

#[test]
fn a_refused_look_up_is_an_error_like_any_other() {
    let bench = bench(1);
    let look_up = |device| -> Result<Location> { Ok(bench.look_up(DeviceAddress(device))?) };
    assert_eq!(look_up(0), refused(Refusal::Unmapped, 0));
    assert_eq!(look_up(DEVICE_LIMIT), refused(Refusal::Range, 0));

    let shown = |device| {
        bench
            .look_up(DeviceAddress(device))
            .unwrap_err()
            .to_string()
    };
    assert_eq!(shown(0), "refused 14 Unmapped at 0 probes 0");
    assert_eq!(shown(DEVICE_LIMIT), "refused 9 Range at 0");
    let error = bench.look_up(DeviceAddress(0)).unwrap_err();
    assert_eq!(Error::from(error).to_string(), "refused 14 Unmapped at 0");
}

// ---- card reads and writes

#[test]
fn device_read_crosses_adjoining_mappings() {
    let mut bench = bench(2);
    let read = Rights::READ;
    bench
        .map(MemoryAddress(PAGE), DeviceAddress(0), PAGE, read)
        .unwrap();
    bench
        .map(MemoryAddress(0), DeviceAddress(PAGE), PAGE, read)
        .unwrap();
    bench.host_write(MemoryAddress(0), b"cd").unwrap();
    bench
        .host_write(MemoryAddress(2 * PAGE - 2), b"ab")
        .unwrap();
    let mut buffer = [0; 4];
    assert_eq!(
        bench.device_read(DeviceAddress(PAGE - 2), &mut buffer),
        Ok(())
    );
    assert_eq!(&buffer, b"abcd");
}

#[test]
fn device_read_refuses_at_the_first_faulty_offset_and_leaves_the_buffer() {
    let mut bench = bench(2);
    bench
        .map(MemoryAddress(0), DeviceAddress(0), PAGE, Rights::READ)
        .unwrap();
    bench
        .map(
            MemoryAddress(PAGE),
            DeviceAddress(PAGE),
            PAGE,
            Rights::WRITE,
        )
        .unwrap();
    bench.host_write(MemoryAddress(PAGE - 3), b"ab").unwrap();
    let mut buffer = [GARBAGE; 3];
    let mut read = |device, length: usize| {
        let answer = bench.device_read(DeviceAddress(device), &mut buffer[..length]);
        assert_eq!(buffer, [GARBAGE; 3]);
        answer
    };
    assert_eq!(read(PAGE - 3, 3), refused(Refusal::Unwritten, 2));
    assert_eq!(read(PAGE, 1), refused(Refusal::NoRight, 0));
    assert_eq!(read(2 * PAGE, 1), refused(Refusal::Unmapped, 0));
    assert_eq!(read(DEVICE_LIMIT - 1, 2), refused(Refusal::Range, 0));
    assert_eq!(read(DEVICE_LIMIT, 0), Ok(()));
}

#[test]
fn device_read_refuses_more_than_the_limit_before_the_range() {
    let bench = bench(1);
    let mut buffer = vec![0; TRANSFER_LIMIT + 1];
    assert_eq!(
        bench.device_read(DeviceAddress(DEVICE_LIMIT), &mut buffer),
        refused(Refusal::TooLong, 0)
    );
}

#[test]
fn device_write_stores_in_offset_order_and_marks() {
    let mut bench = bench(2);
    for device in [0, PAGE] {
        bench
            .map(MemoryAddress(0), DeviceAddress(device), PAGE, Rights::WRITE)
            .unwrap();
    }
    let mut bytes = vec![b'a'; PAGE as usize];
    bytes.push(b'z');
    assert_eq!(bench.device_write(DeviceAddress(0), &bytes), Ok(()));
    assert_eq!(bench.memory()[..3], *b"zaa");
    let (first, second) = bench.marks().split_at(marks_len(PAGE as usize));
    assert!(first.iter().all(|byte| *byte == 0xff));
    assert!(second.iter().all(|byte| *byte == 0));
}

#[test]
fn device_write_refused_leaves_memory_and_marks() {
    let mut bench = bench(1);
    bench
        .map(MemoryAddress(0), DeviceAddress(0), PAGE, Rights::WRITE)
        .unwrap();
    assert_eq!(
        bench.device_write(DeviceAddress(PAGE - 1), b"xy"),
        refused(Refusal::Unmapped, 1)
    );
    assert_eq!(bench.memory(), [GARBAGE; PAGE as usize]);
    assert_eq!(bench.marks(), [0; marks_len(PAGE as usize)]);

    bench
        .map(MemoryAddress(0), DeviceAddress(PAGE), PAGE, Rights::READ)
        .unwrap();
    assert_eq!(
        bench.device_write(DeviceAddress(PAGE - 1), b"xy"),
        refused(Refusal::NoRight, 1)
    );
}

// ---- host stores and loads

#[test]
fn host_write_reaches_the_end_of_memory_and_not_past_it() {
    let mut bench = bench(1);
    assert_eq!(bench.host_write(MemoryAddress(PAGE - 2), b"ab"), Ok(()));
    assert_eq!(bench.memory()[PAGE as usize - 2..], *b"ab");
    assert_eq!(
        bench.host_write(MemoryAddress(PAGE - 1), b"xy"),
        refused(Refusal::Range, 0)
    );
    assert_eq!(
        bench.host_write(MemoryAddress(u64::MAX), b"xy"),
        refused(Refusal::Range, 0)
    );
    assert_eq!(bench.memory()[PAGE as usize - 2..], *b"ab");
    assert_eq!(
        bench.host_write(MemoryAddress(0), &[0; TRANSFER_LIMIT + 1]),
        refused(Refusal::TooLong, 0)
    );
}

#[test]
fn host_read_gives_written_bytes_alone() {
    let mut bench = bench(1);
    bench.host_write(MemoryAddress(8), b"abc").unwrap();
    let mut buffer = [0; 3];
    assert_eq!(bench.host_read(MemoryAddress(8), &mut buffer), Ok(()));
    assert_eq!(&buffer, b"abc");
    assert_eq!(
        bench.host_read(MemoryAddress(9), &mut buffer),
        refused(Refusal::Unwritten, 2)
    );
    assert_eq!(
        bench.host_read(MemoryAddress(PAGE - 2), &mut buffer),
        refused(Refusal::Range, 0)
    );
    assert_eq!(&buffer, b"abc");
}

#[test]
fn invalidate_clears_marks_and_keeps_bytes() {
    let mut bench = bench(1);
    bench.host_write(MemoryAddress(0), b"abc").unwrap();
    assert_eq!(bench.invalidate(MemoryAddress(1), 1), Ok(()));
    assert_eq!(bench.marks()[0], 0b0101);
    assert_eq!(bench.memory()[..3], *b"abc");
    assert_eq!(bench.invalidate(MemoryAddress(PAGE), 0), Ok(()));
    assert_eq!(
        bench.invalidate(MemoryAddress(1), u64::MAX),
        refused(Refusal::Range, 0)
    );
    assert_eq!(bench.marks()[0], 0b0101);
}
