//! The requests on the container and on the card.

use crate::answer::{refuse_if, Answer, Refusal};
use crate::bench::{
    is_iommu_type, DeviceAddress, DeviceRange, Mapping, MemoryAddress, State, DEVICE_LIMIT, PAGE,
    TYPE1,
};
use crate::bytes::{number_at, put_number};
use crate::lines::{self, set_lines, INDICES};
use crate::registers;

pub const CONTAINER: u64 = 0;
pub const DEVICE: u64 = 1;

/// A line of the table of requests (rule 3.2).
#[derive(Clone, Copy, Debug, PartialEq, Eq)]
pub struct Listed {
    pub target: u64,
    pub number: u64,
    pub size: usize,
    /// Whether the first field is argsz, so that check 4 is tried.
    pub argsz: bool,
    /// Whether an accepted request writes output fields to its buffer.
    pub writes: bool,
}

const fn listed_as(target: u64, number: u64, size: usize, argsz: bool, writes: bool) -> Listed {
    Listed {
        target,
        number,
        size,
        argsz,
        writes,
    }
}

#[rustfmt::skip]
const LISTED: [Listed; 11] = [
    listed_as(CONTAINER, 100,  0, false, false),
    listed_as(CONTAINER, 101,  4, false, false),
    listed_as(CONTAINER, 102,  4, false, false),
    listed_as(CONTAINER, 112, 16, true,  true),
    listed_as(CONTAINER, 113, 32, true,  false),
    listed_as(CONTAINER, 114, 24, true,  true),
    listed_as(DEVICE,    107, 16, true,  true),
    listed_as(DEVICE,    108, 32, true,  true),
    listed_as(DEVICE,    109, 16, true,  true),
    listed_as(DEVICE,    110, 20, true,  false),
    listed_as(DEVICE,    111,  0, false, false),
];

/// The request with this target and number, if it is listed.
pub fn listed(target: u64, number: u64) -> Option<Listed> {
    LISTED
        .into_iter()
        .find(|line| line.target == target && line.number == number)
}

/// One request: checks 1, 2, 3, 4, then its own.
pub fn request(
    state: &mut State,
    memory: &[u8],
    marks: &[u8],
    target: u64,
    number: u64,
    buffer: &mut [u8],
) -> Answer<u64> {
    state.check_bench(memory, marks)?;
    let line = listed(target, number).ok_or(Refusal::NoSuchRequest)?;
    refuse_if(buffer.len() < line.size, Refusal::Short)?;
    if line.argsz {
        check_argsz(line.size, buffer)?;
    }
    match (target, number) {
        (CONTAINER, 100) => Ok(0),
        (CONTAINER, 101) => Ok(check_extension(buffer)),
        (CONTAINER, 102) => set_iommu(state, buffer),
        (CONTAINER, 112) => iommu_info(buffer),
        (CONTAINER, 113) => map(state, buffer),
        (CONTAINER, 114) => unmap(state, buffer),
        (DEVICE, 107) => device_info(buffer),
        (DEVICE, 108) => region_info(buffer),
        (DEVICE, 109) => interrupt_info(buffer),
        (DEVICE, 110) => set_lines(state, buffer),
        (DEVICE, 111) => reset_device(state),
        _ => unreachable!("every listed request stands above"),
    }
}

/// Check 4: argsz below the size or above the buffer's length.
fn check_argsz(size: usize, buffer: &[u8]) -> Answer<()> {
    let argsz = u128::from(number_at(buffer, 0, 4));
    refuse_if(
        argsz < size as u128 || argsz > buffer.len() as u128,
        Refusal::ArgSize,
    )
}

/// 1 for the IOMMU types that a container may be of.
fn check_extension(buffer: &[u8]) -> u64 {
    u64::from(is_iommu_type(number_at(buffer, 0, 4)))
}

/// A container becomes of another IOMMU type only while it holds no mapping; to ask for the type that
/// it is of is no exception.
fn set_iommu(state: &mut State, buffer: &[u8]) -> Answer<u64> {
    let number = number_at(buffer, 0, 4);
    refuse_if(!is_iommu_type(number) || state.count > 0, Refusal::Flags)?;
    state.iommu_type = number;
    Ok(0)
}

fn iommu_info(buffer: &mut [u8]) -> Answer<u64> {
    put_number(buffer, 4, 4, 1); // flags
    put_number(buffer, 8, 8, PAGE); // page bitmap
    Ok(0)
}

/// argsz 0..4, flags 4..8, memory address 8..16, device address 16..24, size 24..32.
fn map(state: &mut State, buffer: &[u8]) -> Answer<u64> {
    let new = Mapping {
        rights: number_at(buffer, 4, 4),
        memory: MemoryAddress(number_at(buffer, 8, 8)),
        device: DeviceAddress(number_at(buffer, 16, 8)),
        size: number_at(buffer, 24, 8),
    };
    check_map(state, &new)?;
    insert(state, new);
    Ok(0)
}

fn check_map(state: &State, new: &Mapping) -> Answer<()> {
    refuse_if(!(1..=3).contains(&new.rights), Refusal::Flags)?;
    refuse_if(new.size == 0, Refusal::Empty)?;
    refuse_if(
        !new.memory.aligned() || !new.device.aligned() || !new.size.is_multiple_of(PAGE),
        Refusal::Unaligned,
    )?;
    refuse_if(
        new.range().end > DEVICE_LIMIT || new.memory_end() > u128::from(state.noted_length),
        Refusal::Range,
    )?;
    refuse_if(
        state.mappings().iter().any(|m| m.shares_with(new.range())),
        Refusal::Overlap,
    )?;
    refuse_if(state.count == state.records.len() as u64, Refusal::NoRoom)
}

/// Puts a mapping at its place: each record from there on moves to where the next one stood (rule 1.17).
fn insert(state: &mut State, new: Mapping) {
    let place = count_below(state.mappings(), new.device);
    for i in (place..state.mappings().len()).rev() {
        state.records[i + 1] = state.records[i];
    }
    state.records[place] = new;
    state.count += 1;
}

/// How many mappings stand before a device address.
fn count_below(mappings: &[Mapping], device: DeviceAddress) -> usize {
    mappings.iter().filter(|m| m.device.0 < device.0).count()
}

/// argsz 0..4, flags 4..8, device address 8..16, size 16..24. The sum of the removed sizes goes
/// to the size field; the result is 0.
fn unmap(state: &mut State, buffer: &mut [u8]) -> Answer<u64> {
    let flags = number_at(buffer, 4, 4);
    let device = DeviceAddress(number_at(buffer, 8, 8));
    let size = number_at(buffer, 16, 8);
    let range = DeviceRange::new(device, size);
    refuse_if(flags != 0, Refusal::Flags)?;
    refuse_if(size == 0, Refusal::Empty)?;
    refuse_if(
        !device.aligned() || !size.is_multiple_of(PAGE),
        Refusal::Unaligned,
    )?;
    refuse_if(range.end > DEVICE_LIMIT, Refusal::Range)?;
    let removed = if state.iommu_type == TYPE1 {
        unmap_type1(state, range)
    } else {
        unmap_type1v2(state, range)?
    };
    put_number(buffer, 16, 8, removed);
    Ok(0)
}

/// What lies inside goes, unless something lies there in part.
fn unmap_type1v2(state: &mut State, range: DeviceRange) -> Answer<u64> {
    refuse_if(
        state.mappings().iter().any(|m| cuts(range, m)),
        Refusal::Cuts,
    )?;
    Ok(remove(state, |m| m.lies_inside(range)))
}

/// What begins in the range goes, whole, unless something reaches into the range from before it; then
/// nothing goes, also nothing further up.
fn unmap_type1(state: &mut State, range: DeviceRange) -> u64 {
    if state.mappings().iter().any(|m| m.reaches_into(range)) {
        return 0;
    }
    remove(state, |m| m.begins_in(range))
}

/// Removes mappings and gives the sum of their sizes: they lie apart below 2^48, so it is at most 2^48.
/// Those that stay move down, in order; records from the new count on keep what they held (rule 1.17).
fn remove(state: &mut State, goes: impl Fn(&Mapping) -> bool) -> u64 {
    let (mut kept, mut removed) = (0, 0);
    for i in 0..state.mappings().len() {
        let mapping = state.records[i];
        if goes(&mapping) {
            removed += mapping.size;
        } else {
            state.records[kept] = mapping;
            kept += 1;
        }
    }
    state.count = kept as u64;
    removed
}

/// Whether the range holds some but not all of a mapping.
fn cuts(range: DeviceRange, mapping: &Mapping) -> bool {
    mapping.shares_with(range) && !mapping.lies_inside(range)
}

fn device_info(buffer: &mut [u8]) -> Answer<u64> {
    put_number(buffer, 4, 4, 3); // flags
    put_number(buffer, 8, 4, 9); // regions
    put_number(buffer, 12, 4, 4); // interrupts
    Ok(0)
}

/// Flags on entry are stale (rule 7.15): only argsz and the index at byte 8 are looked at.
fn region_info(buffer: &mut [u8]) -> Answer<u64> {
    let index = number_at(buffer, 8, 4);
    let (size, flags) = match index {
        0 => (0x4000, 7),
        7 => (0x100, 3),
        1..=6 | 8 => (0, 0),
        _ => return Err(Refusal::Index.into()),
    };
    put_number(buffer, 4, 4, flags);
    put_number(buffer, 12, 4, 0); // reserved
    put_number(buffer, 16, 8, size);
    put_number(buffer, 24, 8, index << 40); // at most 8 x 2^40
    Ok(0)
}

fn interrupt_info(buffer: &mut [u8]) -> Answer<u64> {
    let index = INDICES.get(number_at(buffer, 8, 4) as usize);
    let (count, flags) = *index.ok_or(Refusal::Index)?;
    put_number(buffer, 4, 4, flags);
    put_number(buffer, 12, 4, count);
    Ok(0)
}

/// Resets the registers and disables all lines; the running state, the table and marks stay.
fn reset_device(state: &mut State) -> Answer<u64> {
    state.registers = registers::reset();
    state.lines = lines::disabled();
    Ok(0)
}

#[cfg(test)]
mod tests {
    use super::*;
    use crate::bench::mark_bytes;
    use crate::registers::set_register;

    const GARBAGE: u8 = 0xa5;

    fn refused(refusal: Refusal) -> Answer<u64> {
        Err(refusal.into())
    }

    /// A request on a sound bench, whose memory is not looked at.
    fn ask(state: &mut State, target: u64, number: u64, buffer: &mut [u8]) -> Answer<u64> {
        let bytes = vec![0; state.noted_length as usize];
        let marks = vec![0; mark_bytes(bytes.len())];
        request(state, &bytes, &marks, target, number, buffer)
    }

    /// A buffer of garbage with these fields: offset, width, number.
    fn buffer(length: usize, fields: &[(usize, usize, u64)]) -> Vec<u8> {
        let mut buffer = vec![GARBAGE; length];
        for &(offset, width, number) in fields {
            put_number(&mut buffer, offset, width, number);
        }
        buffer
    }

    fn map(state: &mut State, flags: u64, memory: u64, device: u64, size: u64) -> Answer<u64> {
        let fields = [(0, 4, 32), (4, 4, flags), (8, 8, memory), (16, 8, device)];
        let mut buffer = buffer(32, &fields);
        put_number(&mut buffer, 24, 8, size);
        let before = buffer.clone();
        let answer = ask(state, CONTAINER, 113, &mut buffer);
        assert_eq!(buffer, before, "map has no output");
        answer
    }

    /// The number left in the size field.
    fn unmap(state: &mut State, flags: u64, device: u64, size: u64) -> Answer<u64> {
        let fields = [(0, 4, 24), (4, 4, flags), (8, 8, device), (16, 8, size)];
        let mut buffer = buffer(24, &fields);
        let result = ask(state, CONTAINER, 114, &mut buffer)?;
        assert_eq!(result, 0, "the sum is in the size field alone");
        assert_eq!(buffer[..16], self::buffer(24, &fields)[..16]);
        Ok(number_at(&buffer, 16, 8))
    }

    fn pages(count: u64) -> State {
        State::fresh(count * 4_096)
    }

    fn held(state: &State) -> Vec<u64> {
        state.mappings().iter().map(|m| m.device.0).collect()
    }

    /// Rule 3.1: VFIO gives one number to several requests.
    #[test]
    fn target_and_number_choose_the_request() {
        let mut state = pages(1);
        let on_container = [99, 103, 107, 108, 109, 110, 111, 115, 116, 0x1_0000_0066];
        let on_device = [100, 101, 102, 106, 112, 113, 114, 0x1_0000_006b];
        for number in on_container {
            let answer = ask(&mut state, CONTAINER, number, &mut buffer(64, &[]));
            assert_eq!(answer, refused(Refusal::NoSuchRequest), "{number}");
        }
        for number in on_device {
            let answer = ask(&mut state, DEVICE, number, &mut buffer(64, &[]));
            assert_eq!(answer, refused(Refusal::NoSuchRequest), "{number}");
        }
        let answer = ask(&mut state, 2, 107, &mut buffer(64, &[]));
        assert_eq!(answer, refused(Refusal::NoSuchRequest));
    }

    /// Rules 3.1 and 3.3: any other target is 2, which comes before 3.
    #[test]
    fn an_unlisted_request_is_refused_as_such_with_an_empty_buffer() {
        let answer = ask(&mut pages(1), DEVICE, 113, &mut []);
        assert_eq!(answer, refused(Refusal::NoSuchRequest));
    }

    #[test]
    fn short_before_argsz_and_argsz_within_size_and_buffer() {
        let mut state = pages(1);
        let with = |length, argsz| buffer(length, &[(0, 4, argsz)]);
        let mut info = |mut buffer: Vec<u8>| ask(&mut state, DEVICE, 107, &mut buffer);
        assert_eq!(info(with(15, 0)), refused(Refusal::Short));
        assert_eq!(info(with(16, 15)), refused(Refusal::ArgSize));
        assert_eq!(info(with(16, 16)), Ok(0));
        assert_eq!(info(with(16, 17)), refused(Refusal::ArgSize));
        assert_eq!(info(with(20, 20)), Ok(0));
        assert_eq!(info(with(20, 21)), refused(Refusal::ArgSize));
        assert_eq!(info(with(20, 0x1_0000 + 16)), refused(Refusal::ArgSize));
    }

    /// Rules 3.4, 3.8, 3.9 and 3.24: any buffer for 100; 1 for 1 and 3 alone, all four bytes of them.
    #[test]
    fn container_100_and_101() {
        let mut state = pages(1);
        assert_eq!(ask(&mut state, CONTAINER, 100, &mut []), Ok(0));
        let mut extension = |number, length| {
            let mut buffer = buffer(length, &[(0, 4, number)]);
            ask(&mut state, CONTAINER, 101, &mut buffer)
        };
        assert_eq!(extension(3, 4), Ok(1));
        assert_eq!(extension(3, 9), Ok(1));
        assert_eq!(extension(1, 4), Ok(1));
        assert_eq!(extension(2, 4), Ok(0));
        assert_eq!(extension(0x101, 4), Ok(0));
        assert_eq!(extension(0x103, 4), Ok(0));
        assert_eq!(extension(0x0300_0000, 4), Ok(0));
        assert_eq!(
            ask(&mut state, CONTAINER, 101, &mut [3, 0, 0]),
            refused(Refusal::Short)
        );
    }

    /// Rules 3.5 to 3.7: stale flags, zeroed reserved bytes, nothing past the size.
    #[test]
    fn information_writes_its_output_fields_and_nothing_else() {
        let mut state = pages(1);
        type Fields = &'static [(usize, usize, u64)];
        let cases: [(u64, u64, usize, Fields); 4] = [
            (CONTAINER, 112, 16, &[(4, 4, 1), (8, 8, 4_096)]),
            (DEVICE, 107, 16, &[(4, 4, 3), (8, 4, 9), (12, 4, 4)]),
            (
                DEVICE,
                108,
                32,
                &[(4, 4, 3), (12, 4, 0), (16, 8, 0x100), (24, 8, 7 << 40)],
            ),
            (DEVICE, 109, 16, &[(4, 4, 9), (12, 4, 8)]),
        ];
        for (target, number, size, output) in cases {
            let index = if number == 108 { 7 } else { 1 };
            let argsz = size as u64 + 8;
            let mut asked = buffer(size + 9, &[(0, 4, argsz), (8, 4, index)]);
            let mut expected = asked.clone();
            for &(offset, width, value) in output {
                put_number(&mut expected, offset, width, value);
            }
            assert_eq!(ask(&mut state, target, number, &mut asked), Ok(0));
            assert_eq!(asked, expected, "{number}");
        }
    }

    /// Rule 7.1: region 7, argsz 32.
    #[test]
    fn region_7_byte_by_byte() {
        let mut buffer = buffer(32, &[(0, 4, 32), (8, 4, 7)]);
        assert_eq!(ask(&mut pages(2), DEVICE, 108, &mut buffer), Ok(0));
        assert_eq!(
            buffer,
            [
                0x20, 0, 0, 0, 3, 0, 0, 0, 7, 0, 0, 0, 0, 0, 0, 0, // argsz to reserved
                0, 1, 0, 0, 0, 0, 0, 0, // size
                0, 0, 0, 0, 0, 7, 0, 0, // offset
            ]
        );
    }

    /// Rules 3.12 to 3.15: index of four bytes, offset of empty regions, no output before 6.
    #[test]
    fn regions_0_to_8_and_interrupts_0_to_3_exist() {
        let mut state = pages(1);
        for index in 0..9 {
            let mut buffer = buffer(32, &[(0, 4, 32), (8, 4, index)]);
            assert_eq!(ask(&mut state, DEVICE, 108, &mut buffer), Ok(0));
            let (flags, size) = match index {
                0 => (7, 0x4000),
                7 => (3, 0x100),
                _ => (0, 0),
            };
            assert_eq!(number_at(&buffer, 4, 4), flags, "{index}");
            assert_eq!(number_at(&buffer, 16, 8), size, "{index}");
            assert_eq!(number_at(&buffer, 24, 8), index << 40, "{index}");
        }
        let interrupts = [(7, 1), (9, 8), (9, 16), (0, 0)];
        for (index, (flags, count)) in interrupts.into_iter().enumerate() {
            let mut buffer = buffer(16, &[(0, 4, 16), (8, 4, index as u64)]);
            assert_eq!(ask(&mut state, DEVICE, 109, &mut buffer), Ok(0));
            assert_eq!(number_at(&buffer, 4, 4), flags, "{index}");
            assert_eq!(number_at(&buffer, 12, 4), count, "{index}");
        }
        for (number, index) in [
            (108, 9),
            (108, 0x107),
            (108, 0x0001_0007),
            (109, 4),
            (109, 0x0100_0000),
        ] {
            let mut asked = buffer(32, &[(0, 4, 32), (8, 4, index)]);
            let before = asked.clone();
            let answer = ask(&mut state, DEVICE, number, &mut asked);
            assert_eq!(answer, refused(Refusal::Index), "{number}, {index}");
            assert_eq!(asked, before, "{number}, {index}");
        }
    }

    /// Each line breaks one rule more than the line before it breaks, from the last check on.
    #[test]
    fn maps_checks_run_in_the_rules_order() {
        let mut state = pages(2);
        for i in 0..64 {
            assert_eq!(map(&mut state, 3, 0, 0x10_0000 + i * 4_096, 4_096), Ok(0));
        }
        let overlapping = 0x10_0000;
        let past = 0u64.wrapping_sub(4_096);
        assert_eq!(map(&mut state, 1, 0, 0, 4_096), refused(Refusal::NoRoom));
        assert_eq!(
            map(&mut state, 1, 0, overlapping, 4_096),
            refused(Refusal::Overlap)
        );
        assert_eq!(
            map(&mut state, 1, 4_096, overlapping, 8_192),
            refused(Refusal::Range)
        );
        assert_eq!(map(&mut state, 1, 0, past, 4_096), refused(Refusal::Range));
        for (memory, device, size) in [(1, past, 4_096), (0, past + 1, 4_096), (0, past, 4_095)] {
            assert_eq!(
                map(&mut state, 1, memory, device, size),
                refused(Refusal::Unaligned)
            );
        }
        assert_eq!(map(&mut state, 1, 1, past, 0), refused(Refusal::Empty));
        assert_eq!(map(&mut state, 1, 0, 1, 0), refused(Refusal::Empty));
        for flags in [0, 4, 5, 7, 0x101, 0x8000_0001] {
            assert_eq!(map(&mut state, flags, 0, 1, 0), refused(Refusal::Flags));
        }
    }

    /// Rules 3.2 and 3.21: memory address first; sums of whole numbers.
    #[test]
    fn map_ends_at_2_to_the_48_and_at_the_end_of_memory() {
        let mut state = pages(2);
        let last = (1 << 48) - 4_096;
        let top = 0u64.wrapping_sub(4_096);
        assert_eq!(map(&mut state, 3, 0, last, 8_192), refused(Refusal::Range));
        assert_eq!(
            map(&mut state, 3, 0, 1 << 48, 4_096),
            refused(Refusal::Range)
        );
        assert_eq!(map(&mut state, 3, 0, top, 4_096), refused(Refusal::Range));
        assert_eq!(map(&mut state, 3, 0, 4_096, top), refused(Refusal::Range));
        assert_eq!(map(&mut state, 3, top, 0, 4_096), refused(Refusal::Range));
        assert_eq!(map(&mut state, 3, 8_192, 0, 4_096), refused(Refusal::Range));
        assert_eq!(map(&mut state, 3, 4_096, last, 4_096), Ok(0));
        assert_eq!(state.mappings()[0].memory, MemoryAddress(4_096));
        assert_eq!(state.mappings()[0].device, DeviceAddress(last));
    }

    /// Rule 1.3: the last broken page of memory cannot be mapped.
    #[test]
    fn a_broken_last_page_cannot_be_mapped() {
        let mut state = State::fresh(8_191);
        assert_eq!(map(&mut state, 3, 4_096, 0, 4_096), refused(Refusal::Range));
        assert_eq!(map(&mut state, 3, 0, 0, 4_096), Ok(0));
    }

    /// Rules 3.17 and 3.22: an enclosing map overlaps, an adjoining one does not; memory is shared.
    #[test]
    fn any_shared_device_address_overlaps_and_adjoining_does_not() {
        let mut state = pages(4);
        assert_eq!(map(&mut state, 3, 0, 8_192, 8_192), Ok(0));
        let clashes = [
            (8_192, 8_192),  // the same
            (4_096, 16_384), // encloses it
            (12_288, 4_096), // its last page
            (4_096, 8_192),  // its first page
            (12_288, 8_192), // reaches behind it
        ];
        for (device, size) in clashes {
            assert_eq!(
                map(&mut state, 3, 0, device, size),
                refused(Refusal::Overlap)
            );
        }
        assert_eq!(map(&mut state, 3, 0, 16_384, 4_096), Ok(0));
        assert_eq!(map(&mut state, 3, 0, 4_096, 4_096), Ok(0));
        assert_eq!(held(&state), [4_096, 8_192, 16_384]);
    }

    /// Rules 2.8 and 3.18: kept in order; 64 and no fewer; a freed entry is used again.
    #[test]
    fn the_table_holds_64_rising_and_uses_a_freed_place_again() {
        let mut state = pages(1);
        for i in (0..64).rev() {
            assert_eq!(map(&mut state, 1, 0, i * 8_192, 4_096), Ok(0));
        }
        assert!(held(&state).windows(2).all(|two| two[0] < two[1]));
        assert_eq!(
            map(&mut state, 1, 0, 4_096, 4_096),
            refused(Refusal::NoRoom)
        );
        assert_eq!(unmap(&mut state, 0, 8_192, 4_096), Ok(4_096));
        assert_eq!(map(&mut state, 1, 0, 4_096, 4_096), Ok(0));
        assert_eq!(held(&state)[..3], [0, 4_096, 16_384]);
        assert_eq!(
            map(&mut state, 1, 0, 8_192, 4_096),
            refused(Refusal::NoRoom)
        );
    }

    /// Rule 2.8: as many as there are records, and none where there are none.
    #[test]
    fn a_table_holds_as_many_mappings_as_records_are_lent() {
        for length in [0, 1, 63, 65, 4_095, 4_096] {
            let mut state = pages(1);
            state.records = vec![Mapping::filled(GARBAGE); length as usize];
            for i in (0..length).rev() {
                assert_eq!(map(&mut state, 1, 0, i * 4_096, 4_096), Ok(0));
            }
            assert_eq!(
                map(&mut state, 1, 0, length * 4_096, 4_096),
                refused(Refusal::NoRoom)
            );
            let all: Vec<u64> = (0..length).map(|i| i * 4_096).collect();
            assert_eq!(held(&state), all);
        }
    }

    /// Rules 1.17 and 7.24: of a b c d, without b and c, a d c d is left; nothing behind is touched.
    #[test]
    fn records_past_the_count_keep_what_they_held() {
        let mut state = pages(1);
        state.records = vec![Mapping::filled(GARBAGE); 6];
        for page in [3, 1, 4, 2] {
            assert_eq!(map(&mut state, 1, 0, page * 4_096, 4_096), Ok(0));
        }
        let devices = |state: &State| -> Vec<u64> {
            state.records.iter().map(|m| m.device.0 / 4_096).collect()
        };
        let stale = Mapping::filled(GARBAGE).device.0 / 4_096;
        assert_eq!(devices(&state), [1, 2, 3, 4, stale, stale]);
        assert_eq!(unmap(&mut state, 0, 2 * 4_096, 2 * 4_096), Ok(8_192));
        assert_eq!(devices(&state), [1, 4, 3, 4, stale, stale]);
        assert_eq!(state.count, 2);
        assert_eq!(map(&mut state, 1, 0, 0, 4_096), Ok(0));
        assert_eq!(devices(&state), [0, 1, 4, 4, stale, stale]);
    }

    /// Rule 1.18: another slice that begins with the records in use.
    #[test]
    fn the_records_may_be_others_at_each_call() {
        let mut state = pages(1);
        state.records.truncate(2);
        assert_eq!(map(&mut state, 1, 0, 0, 4_096), Ok(0));
        assert_eq!(map(&mut state, 1, 0, 4_096, 4_096), Ok(0));
        assert_eq!(
            map(&mut state, 1, 0, 8_192, 4_096),
            refused(Refusal::NoRoom)
        );
        state.records.push(Mapping::filled(GARBAGE));
        assert_eq!(map(&mut state, 1, 0, 8_192, 4_096), Ok(0));
        let last = state.records.pop().unwrap();
        assert_eq!(
            map(&mut state, 1, 0, 12_288, 4_096),
            refused(Refusal::BadBench)
        );
        state.records.push(last);
        assert_eq!(unmap(&mut state, 0, 0, 12_288), Ok(12_288));
    }

    /// Rules 3.19 and 3.25: the last check is for Type1v2 alone; under Type1 the mapping blocks.
    #[test]
    fn unmaps_checks_run_in_the_rules_order() {
        let last = [(pages(2), refused(Refusal::Cuts)), (older_pages(2), Ok(0))];
        for (mut state, last) in last {
            assert_eq!(map(&mut state, 3, 0, 0, 8_192), Ok(0));
            let top = 0u64.wrapping_sub(4_096);
            assert_eq!(unmap(&mut state, 0, 4_096, 4_096), last);
            assert_eq!(
                unmap(&mut state, 0, 4_096, 1 << 48),
                refused(Refusal::Range)
            );
            assert_eq!(unmap(&mut state, 0, top, 4_096), refused(Refusal::Range));
            assert_eq!(unmap(&mut state, 0, top, 1), refused(Refusal::Unaligned));
            assert_eq!(unmap(&mut state, 0, 1, top), refused(Refusal::Unaligned));
            assert_eq!(unmap(&mut state, 0, 1, 0), refused(Refusal::Empty));
            for flags in [1, 3, 0x100] {
                assert_eq!(unmap(&mut state, flags, 1, 0), refused(Refusal::Flags));
            }
            assert_eq!(held(&state), [0]);
        }
    }

    /// Rules 3.19 and 3.20, with rules 7.8 and 7.9: cuts at either end; all inside are removed.
    #[test]
    fn unmap_removes_all_inside_or_refuses_to_cut() {
        let mut state = pages(2);
        assert_eq!(map(&mut state, 3, 0, 0, 8_192), Ok(0));
        assert_eq!(map(&mut state, 3, 0, 8_192, 4_096), Ok(0));
        let before = state.clone();
        assert_eq!(unmap(&mut state, 0, 4_096, 8_192), refused(Refusal::Cuts));
        assert_eq!(unmap(&mut state, 0, 4_096, 4_096), refused(Refusal::Cuts));
        assert_eq!(unmap(&mut state, 0, 0, 4_096), refused(Refusal::Cuts));
        assert_eq!(state, before);
        assert_eq!(unmap(&mut state, 0, 0, 12_288), Ok(12_288));
        assert_eq!(held(&state), []);
    }

    /// A range that takes one mapping whole and cuts another removes neither.
    #[test]
    fn a_cut_at_the_high_end_keeps_the_mapping_below_it() {
        let mut state = pages(2);
        assert_eq!(map(&mut state, 3, 0, 0, 4_096), Ok(0));
        assert_eq!(map(&mut state, 3, 0, 8_192, 8_192), Ok(0));
        assert_eq!(unmap(&mut state, 0, 0, 12_288), refused(Refusal::Cuts));
        assert_eq!(held(&state), [0, 8_192]);
    }

    /// Rules 3.19 and 3.20: holes count nothing, and the range may be the whole device space.
    #[test]
    fn unmap_reports_what_it_removed_not_what_was_asked() {
        let mut state = pages(2);
        assert_eq!(unmap(&mut state, 0, 0, 1 << 48), Ok(0));
        assert_eq!(map(&mut state, 3, 0, 4_096, 4_096), Ok(0));
        assert_eq!(map(&mut state, 3, 0, 1 << 40, 8_192), Ok(0));
        assert_eq!(unmap(&mut state, 0, 0, 4_096), Ok(0));
        assert_eq!(unmap(&mut state, 0, 0, 1 << 48), Ok(12_288));
        assert_eq!(held(&state), []);
    }

    fn set_iommu(state: &mut State, number: u64) -> Answer<u64> {
        ask(state, CONTAINER, 102, &mut buffer(4, &[(0, 4, number)]))
    }

    /// So many pages in a container of Type1.
    fn older_pages(count: u64) -> State {
        let mut state = pages(count);
        assert_eq!(set_iommu(&mut state, 1), Ok(0));
        state
    }

    /// Rule 3.23: 1 and 3, all four bytes of them; argsz is not asked for; nothing else changes.
    #[test]
    fn an_empty_container_takes_either_iommu_type() {
        let mut state = pages(1);
        for number in [1, 1, 3, 3, 1] {
            assert_eq!(set_iommu(&mut state, number), Ok(0));
            let expected = State {
                iommu_type: number,
                ..pages(1)
            };
            assert_eq!(state, expected);
        }
        for number in [0, 2, 4, 0x101, 0x103, 0x0100_0001, 0x0300_0000, 0x8000_0003] {
            assert_eq!(set_iommu(&mut state, number), refused(Refusal::Flags));
            assert_eq!(state.iommu_type, 1, "{number}");
        }
        let mut long = buffer(9, &[(0, 4, 3)]);
        assert_eq!(ask(&mut state, CONTAINER, 102, &mut long), Ok(0));
        assert_eq!(long, buffer(9, &[(0, 4, 3)]));
        assert_eq!(
            ask(&mut state, CONTAINER, 102, &mut [1, 0, 0]),
            refused(Refusal::Short)
        );
    }

    /// Rule 3.23: also with the number that it has. What counts is the count, not the records.
    #[test]
    fn a_container_with_a_mapping_keeps_its_iommu_type() {
        for number in [1, 3] {
            let mut state = pages(1);
            assert_eq!(set_iommu(&mut state, number), Ok(0));
            assert_eq!(map(&mut state, 3, 0, 0, 4_096), Ok(0));
            let before = state.clone();
            for asked in [1, 3, 2] {
                assert_eq!(set_iommu(&mut state, asked), refused(Refusal::Flags));
            }
            assert_eq!(state, before);
            assert_eq!(unmap(&mut state, 0, 0, 4_096), Ok(4_096));
            assert_eq!(set_iommu(&mut state, 4 - number), Ok(0));
        }
    }

    /// Rule 3.25: [0, 12288) begins before each of these ranges and holds its start; nothing goes, also
    /// not [12288, 16384), which lies inside some.
    #[test]
    fn a_mapping_that_reaches_into_the_range_blocks_an_unmap_under_type1() {
        let mut state = older_pages(3);
        assert_eq!(map(&mut state, 3, 0, 0, 12_288), Ok(0));
        assert_eq!(map(&mut state, 3, 0, 12_288, 4_096), Ok(0));
        let before = state.clone();
        for (device, size) in [
            (4_096, 4_096),   // inside the first
            (8_192, 4_096),   // up to its end
            (4_096, 12_288),  // to the end of the second
            (4_096, 1 << 40), // and beyond
        ] {
            assert_eq!(unmap(&mut state, 0, device, size), Ok(0), "{device}");
            assert_eq!(state, before);
        }
    }

    /// Rule 3.25: what begins in the range goes whole. A mapping that begins at the range's start does
    /// not begin before it, one that ends there does not hold it, and one that begins at the range's end
    /// does not begin in it.
    #[test]
    fn an_unmap_under_type1_takes_what_begins_in_its_range() {
        let mut full = older_pages(2);
        for (device, size) in [(0, 4_096), (4_096, 8_192), (16_384, 4_096), (20_480, 8_192)] {
            assert_eq!(map(&mut full, 3, 0, device, size), Ok(0));
        }
        let cases: [(u64, u64, u64, &[u64]); 8] = [
            (4_096, 4_096, 8_192, &[0, 16_384, 20_480]),
            (4_096, 8_192, 8_192, &[0, 16_384, 20_480]),
            (0, 8_192, 12_288, &[16_384, 20_480]),
            (12_288, 4_096, 0, &[0, 4_096, 16_384, 20_480]),
            (12_288, 8_192, 4_096, &[0, 4_096, 20_480]),
            (12_288, 12_288, 12_288, &[0, 4_096]),
            (28_672, 4_096, 0, &[0, 4_096, 16_384, 20_480]),
            (0, 1 << 48, 24_576, &[]),
        ];
        for (device, size, removed, stay) in cases {
            let mut state = full.clone();
            assert_eq!(unmap(&mut state, 0, device, size), Ok(removed), "{device}");
            assert_eq!(held(&state), stay, "{device}");
        }
    }

    /// Rule 3.16: it resets the card, not the bench.
    #[test]
    fn reset_keeps_the_running_state_the_table_and_the_iommu_type() {
        let mut state = older_pages(1);
        assert_eq!(map(&mut state, 3, 0, 0, 4_096), Ok(0));
        assert_eq!(set_register(&mut state, 0x103, 0, &[15]), Ok(0));
        assert_eq!(set_register(&mut state, 0x102, 16, &[1, 2]), Ok(0));
        state.running = true;
        let mut expected = state.clone();
        expected.registers = registers::reset();
        assert_eq!(ask(&mut state, DEVICE, 111, &mut []), Ok(0));
        assert_eq!(state, expected);
    }
}
