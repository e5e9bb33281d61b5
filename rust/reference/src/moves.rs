//! Look-up, card read and write, host store and load, forget.

use std::fmt;

use crate::answer::{refuse_if, Answer, Refusal, Refused};
use crate::bench::{
    is_written, mark, DeviceAddress, Mapping, MemoryAddress, State, DEVICE_LIMIT, LENGTH_LIMIT,
    READ, WRITE,
};

/// The mapping that holds a device address.
fn holder(state: &State, address: u128) -> Option<&Mapping> {
    state.mappings().iter().find(|m| m.holds(address))
}

/// How far a device address that a mapping holds lies from its first one: less than its size.
fn distance(mapping: &Mapping, address: u128) -> u64 {
    (address - mapping.device.whole()) as u64
}

/// The memory address that a mapping shows at a device address that it holds.
fn shown(mapping: &Mapping, address: u128) -> MemoryAddress {
    MemoryAddress(mapping.memory.0 + distance(mapping, address))
}

/// What a look-up gives.
#[derive(Clone, Copy, Debug, PartialEq, Eq)]
pub struct Found {
    pub memory: MemoryAddress,
    pub rights: u64,
    /// How many device addresses the mapping holds from this one on, itself among them.
    pub left: u64,
    /// How many places were looked at.
    pub probes: u64,
}

/// Why a look-up is refused; 14 alone says how many places were looked at (rule 4.13).
#[derive(Clone, Copy, Debug, PartialEq, Eq)]
pub struct NotFound {
    pub refused: Refused,
    pub probes: Option<u64>,
}

impl From<Refused> for NotFound {
    fn from(refused: Refused) -> NotFound {
        NotFound {
            refused,
            probes: None,
        }
    }
}

impl fmt::Display for NotFound {
    fn fmt(&self, f: &mut fmt::Formatter) -> fmt::Result {
        write!(f, "{}", self.refused)?;
        match self.probes {
            Some(probes) => write!(f, " probes {probes}"),
            None => Ok(()),
        }
    }
}

/// The places of the table that a look-up looks at, in turn (rule 4.12). Which mapping it finds is
/// not asked here: at most one holds the address.
fn places_looked_at(mappings: &[Mapping], address: u128) -> Vec<usize> {
    let mut places = Vec::new();
    // From lo up to but not including hi.
    let (mut lo, mut hi) = (0, mappings.len());
    while lo != hi {
        let place = (lo + hi) / 2;
        places.push(place);
        let range = mappings[place].range();
        if address < range.first {
            hi = place;
        } else if address >= range.end {
            lo = place + 1;
        } else {
            break;
        }
    }
    places
}

/// Takes no memory and marks, asks for no right, and gives 14 at 0.
pub fn look_up(state: &State, device: DeviceAddress) -> Result<Found, NotFound> {
    state.check_sound()?;
    refuse_if(device.whole() >= DEVICE_LIMIT, Refusal::Range)?;
    let probes = places_looked_at(state.mappings(), device.whole()).len() as u64;
    let mapping = holder(state, device.whole()).ok_or(NotFound {
        refused: Refusal::Unmapped.into(),
        probes: Some(probes),
    })?;
    Ok(Found {
        memory: shown(mapping, device.whole()),
        rights: mapping.rights,
        left: mapping.size - distance(mapping, device.whole()),
        probes,
    })
}

/// Where each byte of a card move lies in memory, or the fault of the first offset that has one:
/// at each offset 14, then 15, then for a read (which lends the marks) 16.
fn card_places(
    state: &State,
    device: DeviceAddress,
    length: usize,
    right: u64,
    marks_to_read: Option<&[u8]>,
) -> Answer<Vec<usize>> {
    refuse_if(length > LENGTH_LIMIT, Refusal::TooLong)?;
    refuse_if(
        device.whole() + length as u128 > DEVICE_LIMIT,
        Refusal::Range,
    )?;
    let mut places = Vec::new();
    // The mapping of the offset before is asked first: there may be thousands. They lie apart, so no other holds what it holds.
    let mut last = None;
    for offset in 0..length as u64 {
        let address = device.whole() + u128::from(offset);
        last = last
            .filter(|m: &&Mapping| m.holds(address))
            .or_else(|| holder(state, address));
        let mapping = last.ok_or(Refusal::Unmapped.at(offset))?;
        refuse_if(mapping.rights & right == 0, Refusal::NoRight.at(offset))?;
        let memory = shown(mapping, address);
        if let Some(marks) = marks_to_read {
            let written = is_written(marks, memory.0 as usize);
            refuse_if(!written, Refusal::Unwritten.at(offset))?;
        }
        places.push(memory.0 as usize);
    }
    Ok(places)
}

/// The bytes that a card read gives, once 1 was tried.
pub fn card_bytes(
    state: &State,
    memory: &[u8],
    marks: &[u8],
    device: DeviceAddress,
    length: usize,
) -> Answer<Vec<u8>> {
    let places = card_places(state, device, length, READ, Some(marks))?;
    Ok(places.into_iter().map(|place| memory[place]).collect())
}

pub fn card_read(
    state: &State,
    memory: &[u8],
    marks: &[u8],
    device: DeviceAddress,
    buffer: &mut [u8],
) -> Answer<u64> {
    state.check_bench(memory, marks)?;
    let bytes = card_bytes(state, memory, marks, device, buffer.len())?;
    buffer.copy_from_slice(&bytes);
    Ok(0)
}

/// Stores in offset order, so that where two mappings show one byte the later offset wins.
pub fn card_write(
    state: &State,
    memory: &mut [u8],
    marks: &mut [u8],
    device: DeviceAddress,
    bytes: &[u8],
) -> Answer<u64> {
    state.check_bench(memory, marks)?;
    let places = card_places(state, device, bytes.len(), WRITE, None)?;
    for (offset, place) in places.into_iter().enumerate() {
        memory[place] = bytes[offset];
        mark(marks, place, true);
    }
    Ok(0)
}

/// Check 9 of the calls with a memory address.
fn check_host_range(memory: &[u8], address: MemoryAddress, length: u64) -> Answer<()> {
    refuse_if(
        address.whole() + u128::from(length) > memory.len() as u128,
        Refusal::Range,
    )
}

pub fn host_store(
    state: &State,
    memory: &mut [u8],
    marks: &mut [u8],
    address: MemoryAddress,
    bytes: &[u8],
) -> Answer<u64> {
    state.check_bench(memory, marks)?;
    refuse_if(bytes.len() > LENGTH_LIMIT, Refusal::TooLong)?;
    check_host_range(memory, address, bytes.len() as u64)?;
    for (offset, byte) in bytes.iter().enumerate() {
        memory[address.0 as usize + offset] = *byte;
        mark(marks, address.0 as usize + offset, true);
    }
    Ok(0)
}

pub fn host_load(
    state: &State,
    memory: &[u8],
    marks: &[u8],
    address: MemoryAddress,
    buffer: &mut [u8],
) -> Answer<u64> {
    state.check_bench(memory, marks)?;
    refuse_if(buffer.len() > LENGTH_LIMIT, Refusal::TooLong)?;
    check_host_range(memory, address, buffer.len() as u64)?;
    for offset in 0..buffer.len() {
        let written = is_written(marks, address.0 as usize + offset);
        refuse_if(!written, Refusal::Unwritten.at(offset as u64))?;
    }
    for (offset, byte) in buffer.iter_mut().enumerate() {
        *byte = memory[address.0 as usize + offset];
    }
    Ok(0)
}

/// Any length: it is no move, so 13 is not tried. The bytes stay.
pub fn forget(
    state: &State,
    memory: &[u8],
    marks: &mut [u8],
    address: MemoryAddress,
    length: u64,
) -> Answer<u64> {
    state.check_bench(memory, marks)?;
    check_host_range(memory, address, length)?;
    for offset in 0..length as usize {
        mark(marks, address.0 as usize + offset, false);
    }
    Ok(0)
}

#[cfg(test)]
mod tests {
    use super::*;
    use crate::answer::Refused;
    use crate::bench::mark_bytes;

    const LIMIT: u64 = 1 << 48;

    struct Bench {
        state: State,
        memory: Vec<u8>,
        marks: Vec<u8>,
    }

    /// Memory of garbage with mappings: memory address, device address, size, rights.
    fn bench(length: usize, mappings: &[(u64, u64, u64, u64)]) -> Bench {
        let mut state = State::fresh(length as u64);
        for (i, &(memory, device, size, rights)) in mappings.iter().enumerate() {
            state.records[i] = Mapping {
                memory: MemoryAddress(memory),
                device: DeviceAddress(device),
                size,
                rights,
            };
        }
        state.count = mappings.len() as u64;
        assert!(state.sound());
        Bench {
            state,
            memory: vec![0xa5; length],
            marks: vec![0; mark_bytes(length)],
        }
    }

    impl Bench {
        fn card_read(&self, device: u64, length: usize) -> Answer<Vec<u8>> {
            let mut buffer = vec![0x5a; length];
            let device = DeviceAddress(device);
            match card_read(&self.state, &self.memory, &self.marks, device, &mut buffer) {
                Ok(result) => {
                    assert_eq!(result, 0);
                    Ok(buffer)
                }
                Err(refused) => {
                    assert_eq!(buffer, vec![0x5a; length], "a refused read writes nothing");
                    Err(refused)
                }
            }
        }

        fn card_write(&mut self, device: u64, bytes: &[u8]) -> Answer<u64> {
            let device = DeviceAddress(device);
            card_write(
                &self.state,
                &mut self.memory,
                &mut self.marks,
                device,
                bytes,
            )
        }

        fn host_store(&mut self, address: u64, bytes: &[u8]) -> Answer<u64> {
            let address = MemoryAddress(address);
            host_store(
                &self.state,
                &mut self.memory,
                &mut self.marks,
                address,
                bytes,
            )
        }

        fn host_load(&self, address: u64, length: usize) -> Answer<Vec<u8>> {
            let mut buffer = vec![0x5a; length];
            let address = MemoryAddress(address);
            host_load(&self.state, &self.memory, &self.marks, address, &mut buffer)?;
            Ok(buffer)
        }

        fn forget(&mut self, address: u64, length: u64) -> Answer<u64> {
            let address = MemoryAddress(address);
            forget(&self.state, &self.memory, &mut self.marks, address, length)
        }
    }

    fn refused<T>(refusal: Refusal, place: u64) -> Answer<T> {
        Err(Refused { refusal, place })
    }

    fn found(memory: u64, rights: u64, left: u64, probes: u64) -> Result<Found, NotFound> {
        Ok(Found {
            memory: MemoryAddress(memory),
            rights,
            left,
            probes,
        })
    }

    fn not_found(refusal: Refusal, probes: Option<u64>) -> Result<Found, NotFound> {
        Err(NotFound {
            refused: refusal.into(),
            probes,
        })
    }

    /// Rule 4.1: rights as a number; no right is asked for.
    #[test]
    fn look_up_gives_memory_address_and_rights() {
        let state = bench(8_192, &[(4_096, 0, 4_096, 2), (0, LIMIT - 4_096, 4_096, 1)]).state;
        let at = |device| look_up(&state, DeviceAddress(device));
        assert_eq!(at(0), found(4_096, 2, 4_096, 2));
        assert_eq!(at(4_095), found(8_191, 2, 1, 2));
        assert_eq!(at(4_096), not_found(Refusal::Unmapped, Some(2)));
        assert_eq!(at(LIMIT - 1), found(4_095, 1, 1, 1));
        assert_eq!(at(LIMIT), not_found(Refusal::Range, None));
        assert_eq!(at(u64::MAX), not_found(Refusal::Range, None));
    }

    /// Rule 4.11: to the end of its own mapping, though the next one adjoins and memory goes on.
    #[test]
    fn look_up_says_how_far_the_mapping_runs_on() {
        let state = bench(12_288, &[(0, 4_096, 8_192, 3), (8_192, 12_288, 4_096, 3)]).state;
        let at = |device| look_up(&state, DeviceAddress(device));
        assert_eq!(at(4_096), found(0, 3, 8_192, 2));
        assert_eq!(at(8_191), found(4_095, 3, 4_097, 2));
        assert_eq!(at(12_287), found(8_191, 3, 1, 2));
        assert_eq!(at(12_288), found(8_192, 3, 4_096, 1));
        assert_eq!(at(16_383), found(12_287, 3, 1, 1));
    }

    /// So many mappings of a page each, at pages 1, 3, 5, .. of the device.
    fn pages_apart(held: u64) -> Vec<Mapping> {
        let page = |i| Mapping {
            memory: MemoryAddress(0),
            device: DeviceAddress(4_096 * (2 * i + 1)),
            size: 4_096,
            rights: 1,
        };
        (0..held).map(page).collect()
    }

    /// Rule 4.12, by hand: where it stops at a mapping, and where lo meets hi.
    #[test]
    fn places_are_looked_at_by_halving() {
        let places = |held, page: u128| places_looked_at(&pages_apart(held), page * 4_096);
        assert_eq!(places(0, 0), []);
        assert_eq!([0, 1, 2].map(|page| places(1, page)), [[0], [0], [0]]);
        assert_eq!([0, 1, 2].map(|page| places(2, page)), [[1, 0]; 3]);
        assert_eq!([3, 4].map(|page| places(2, page)), [[1]; 2]);
        assert_eq!(places(3, 3), [1]);
        assert_eq!(places(3, 4), [1, 2]);

        let (low, high) = ([32, 16, 8, 4, 2, 1, 0], [32, 48, 56, 60, 62, 63]);
        assert_eq!([0, 1].map(|page| places(64, page)), [low; 2]);
        assert_eq!([127, 128].map(|page| places(64, page)), [high; 2]);
        assert_eq!(places(64, 65), [32]);
        assert_eq!(places(64, 64), [32, 16, 24, 28, 30, 31]);
    }

    /// Rule 4.12: as many as the number held has binary digits are enough, and are needed.
    #[test]
    fn the_most_places_looked_at_are_the_digits_of_the_number_held() {
        for (held, most) in [(1, 1), (2, 2), (3, 2), (4, 3), (63, 6), (64, 7), (65, 7)] {
            let mappings = pages_apart(held);
            let pages = 0..=2 * u128::from(held);
            let counts = pages.map(|page| places_looked_at(&mappings, page * 4_096).len());
            assert_eq!(counts.max(), Some(most), "{held} held");
        }
        let mappings = pages_apart(4_096);
        let count = |page: u128| places_looked_at(&mappings, page * 4_096).len();
        assert_eq!([0, 8_192].map(count), [13, 12]);
    }

    /// Rules 4.12 and 4.13: a count on success and with 14, whatever is held; none with 1.
    #[test]
    fn refusal_14_of_a_look_up_alone_has_a_count() {
        let at = |state: &State, device| look_up(state, DeviceAddress(device));
        let mut state = State::fresh(4_096);
        assert_eq!(at(&state, 0), not_found(Refusal::Unmapped, Some(0)));
        state.records = pages_apart(64);
        state.count = 64;
        assert_eq!(at(&state, 0), not_found(Refusal::Unmapped, Some(7)));
        assert_eq!(
            at(&state, 128 * 4_096),
            not_found(Refusal::Unmapped, Some(6))
        );
        assert_eq!(at(&state, 4_097), found(1, 1, 4_095, 7));
        state.count = 65;
        assert_eq!(at(&state, 0), not_found(Refusal::BadBench, None));
    }

    /// Rule 7.12: 16 at 1.
    #[test]
    fn a_read_stops_at_the_first_unwritten_byte() {
        let mut bench = bench(4_096, &[(0, 0, 4_096, 3)]);
        assert_eq!(bench.host_store(0, &[7]), Ok(0));
        assert_eq!(bench.card_read(0, 2), refused(Refusal::Unwritten, 1));
        assert_eq!(bench.card_read(0, 1), Ok(vec![7]));
    }

    /// Rule 4.3: the first offset decides, then 14, 15, 16 at that offset.
    #[test]
    fn the_first_faulty_offset_decides_whatever_the_fault() {
        // Page 0 readable, page 1 only writable, page 2 not mapped.
        let mut bench = bench(8_192, &[(0, 0, 4_096, 1), (4_096, 4_096, 4_096, 2)]);
        assert_eq!(bench.host_store(4_094, &[1]), Ok(0));
        assert_eq!(bench.card_read(4_094, 8), refused(Refusal::Unwritten, 1));
        assert_eq!(bench.host_store(4_095, &[2]), Ok(0));
        assert_eq!(bench.card_read(4_094, 8), refused(Refusal::NoRight, 2));
        assert_eq!(bench.card_read(8_190, 8), refused(Refusal::NoRight, 0));
        assert_eq!(
            bench.card_write(8_190, &[0; 8]),
            refused(Refusal::Unmapped, 2)
        );
        assert_eq!(
            bench.card_write(4_095, &[0; 8]),
            refused(Refusal::NoRight, 0)
        );
        assert_eq!(bench.card_read(4_094, 2), Ok(vec![1, 2]));
    }

    #[test]
    fn a_write_needs_no_right_to_read_and_no_written_bytes() {
        let mut bench = bench(4_096, &[(0, 0, 4_096, 2)]);
        assert_eq!(bench.card_write(5, &[1, 2]), Ok(0));
        assert_eq!(bench.host_load(5, 2), Ok(vec![1, 2]));
        assert_eq!(bench.card_read(5, 2), refused(Refusal::NoRight, 0));
    }

    /// Rules 2.3 and 7.16: a refused write stores and marks nothing.
    #[test]
    fn a_refused_write_changes_no_byte_and_no_mark() {
        let mut bench = bench(4_096, &[(0, 0, 4_096, 3)]);
        assert_eq!(
            bench.card_write(4_095, &[1, 2]),
            refused(Refusal::Unmapped, 1)
        );
        assert_eq!(bench.memory, vec![0xa5; 4_096]);
        assert_eq!(bench.marks, vec![0; 512]);
    }

    #[test]
    fn a_move_may_cross_adjoining_mappings() {
        let mut bench = bench(8_192, &[(4_096, 0, 4_096, 3), (0, 4_096, 4_096, 3)]);
        assert_eq!(bench.card_write(4_094, &[1, 2, 3, 4]), Ok(0));
        assert_eq!(bench.host_load(8_190, 2), Ok(vec![1, 2]));
        assert_eq!(bench.host_load(0, 2), Ok(vec![3, 4]));
        assert_eq!(bench.card_read(4_094, 4), Ok(vec![1, 2, 3, 4]));
    }

    /// Rule 4.6: the later offset wins.
    #[test]
    fn where_two_mappings_show_one_byte_the_later_offset_wins() {
        let mut bench = bench(4_096, &[(0, 0, 4_096, 3), (0, 4_096, 4_096, 3)]);
        let mut bytes = vec![1; 4_096];
        bytes.extend([2, 3]);
        assert_eq!(bench.card_write(0, &bytes), Ok(0));
        assert_eq!(bench.memory[..3], [2, 3, 1]);
        let mut read = vec![2, 3];
        read.extend(vec![1; 4_094]);
        read.extend([2, 3]);
        assert_eq!(bench.card_read(0, 4_098), Ok(read));
    }

    /// Rules 1.9 and 4.3: 13 before 9 before 14; 65,536 is allowed.
    #[test]
    fn too_long_comes_before_range_and_range_before_unmapped() {
        let mut bench = bench(131_072, &[(0, 0, 131_072, 3)]);
        let long = vec![3; 65_537];
        assert_eq!(bench.card_read(LIMIT, 65_537), refused(Refusal::TooLong, 0));
        assert_eq!(bench.card_write(LIMIT, &long), refused(Refusal::TooLong, 0));
        assert_eq!(
            bench.host_store(131_072, &long),
            refused(Refusal::TooLong, 0)
        );
        assert_eq!(
            bench.host_load(131_072, 65_537),
            refused(Refusal::TooLong, 0)
        );
        assert_eq!(bench.card_write(0, &long[..65_536]), Ok(0));
        assert_eq!(bench.card_read(0, 65_536), Ok(long[..65_536].to_vec()));
        assert_eq!(bench.host_load(0, 65_536), Ok(long[..65_536].to_vec()));
        assert_eq!(bench.host_store(65_536, &long[..65_536]), Ok(0));
        assert_eq!(bench.card_read(LIMIT - 1, 2), refused(Refusal::Range, 0));
        assert_eq!(bench.card_read(LIMIT - 2, 2), refused(Refusal::Unmapped, 0));
        assert_eq!(bench.card_read(u64::MAX, 2), refused(Refusal::Range, 0));
    }

    /// Rule 4.10: no mapping is needed.
    #[test]
    fn length_0_is_accepted_where_the_range_is_good() {
        let mut bench = bench(100, &[]);
        assert_eq!(bench.card_read(LIMIT, 0), Ok(vec![]));
        assert_eq!(bench.card_read(LIMIT + 1, 0), refused(Refusal::Range, 0));
        assert_eq!(bench.card_write(LIMIT, &[]), Ok(0));
        assert_eq!(bench.card_write(LIMIT + 1, &[]), refused(Refusal::Range, 0));
        assert_eq!(bench.host_store(100, &[]), Ok(0));
        assert_eq!(bench.host_store(101, &[]), refused(Refusal::Range, 0));
        assert_eq!(bench.host_load(100, 0), Ok(vec![]));
        assert_eq!(bench.host_load(101, 0), refused(Refusal::Range, 0));
        assert_eq!(bench.forget(100, 0), Ok(0));
        assert_eq!(bench.forget(101, 0), refused(Refusal::Range, 0));
        assert_eq!(bench.marks, vec![0; 13]);
    }

    /// Rule 4.8: the offset inside the transfer, not the memory address.
    #[test]
    fn a_host_loads_fault_is_an_offset() {
        let mut bench = bench(100, &[]);
        assert_eq!(bench.host_store(50, &[1, 2, 3]), Ok(0));
        assert_eq!(bench.host_load(50, 5), refused(Refusal::Unwritten, 3));
        assert_eq!(bench.host_load(98, 3), refused(Refusal::Range, 0));
        assert_eq!(bench.host_store(98, &[0; 3]), refused(Refusal::Range, 0));
        assert_eq!(bench.host_load(u64::MAX, 1), refused(Refusal::Range, 0));
    }

    /// Rule 4.9: any length, no wrapping, and the bytes stay.
    #[test]
    fn forget_takes_any_length_and_keeps_the_bytes() {
        let mut bench = bench(100_000, &[]);
        assert_eq!(bench.host_store(10, &[7; 4]), Ok(0));
        assert_eq!(bench.forget(11, u64::MAX), refused(Refusal::Range, 0));
        assert_eq!(bench.forget(u64::MAX, u64::MAX), refused(Refusal::Range, 0));
        assert_eq!(bench.host_load(10, 4), Ok(vec![7; 4]));
        assert_eq!(bench.forget(12, 99_988), Ok(0));
        assert_eq!(bench.host_load(10, 4), refused(Refusal::Unwritten, 2));
        assert_eq!(bench.memory[10..14], [7; 4]);
    }

    /// Rules 1.4 and 1.16: each mark by itself, over the edges of mark bytes; bits past the end stay.
    #[test]
    fn moves_touch_the_marks_of_their_bytes_alone() {
        let mut bench = bench(21, &[]);
        bench.marks = vec![0b0000_0101, 0, 0b1010_0000];
        assert_eq!(bench.host_load(0, 3), refused(Refusal::Unwritten, 1));
        assert_eq!(bench.host_store(7, &[9; 10]), Ok(0));
        assert_eq!(bench.marks, [0b1000_0101, 0b1111_1111, 0b1010_0001]);
        assert_eq!(bench.forget(8, 13), Ok(0));
        assert_eq!(bench.marks, [0b1000_0101, 0, 0b1010_0000]);
    }

    #[test]
    fn moves_do_not_look_at_the_running_state() {
        let mut bench = bench(4_096, &[(0, 0, 4_096, 3)]);
        bench.state.running = true;
        assert_eq!(bench.card_write(0, &[1]), Ok(0));
        assert_eq!(bench.host_store(1, &[2]), Ok(0));
        assert_eq!(bench.card_read(0, 2), Ok(vec![1, 2]));
        assert_eq!(bench.host_load(0, 2), Ok(vec![1, 2]));
    }
}
