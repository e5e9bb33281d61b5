//! The bench: its limits, the mapping table, the kept state and when it is sound.

use crate::answer::{refuse_if, Answer, Refusal};
use crate::lines::{self, Lines};
use crate::registers::{self, Registers, Words};

pub const PAGE: u64 = 4_096;
/// How many records may be lent.
pub const RECORD_LIMIT: usize = 4_096;
/// How many there are where nothing is said.
pub const DEFAULT_RECORDS: usize = 64;
pub const MEMORY_LIMIT: u128 = 1 << 30;
/// Device addresses lie below this.
pub const DEVICE_LIMIT: u128 = 1 << 48;
/// Of a move and of a stream.
pub const LENGTH_LIMIT: usize = 65_536;

pub const READ: u64 = 1;
pub const WRITE: u64 = 2;

/// The IOMMU types that a container may be of, by their numbers.
pub const TYPE1: u64 = 1;
pub const TYPE1V2: u64 = 3;

pub fn is_iommu_type(number: u64) -> bool {
    number == TYPE1 || number == TYPE1V2
}

/// How many mark bytes a memory of this length has: one for each eight bytes begun.
pub fn mark_bytes(memory: usize) -> usize {
    memory / 8 + usize::from(memory % 8 > 0)
}

/// The marks in a mark byte, the lowest bit first.
const BITS: [u8; 8] = [1, 2, 4, 8, 16, 32, 64, 128];

/// What the mark of the byte at a place says. Only here and in [`mark`] are marks packed.
pub fn is_written(marks: &[u8], place: usize) -> bool {
    marks[place / 8] & BITS[place % 8] != 0
}

/// Makes the byte at a place written, or not.
pub fn mark(marks: &mut [u8], place: usize, written: bool) {
    if is_written(marks, place) != written {
        marks[place / 8] ^= BITS[place % 8];
    }
}

/// What the card uses (an IOVA).
#[derive(Clone, Copy, Debug, PartialEq, Eq)]
pub struct DeviceAddress(pub u64);

/// What the host uses: bytes from the start of memory.
#[derive(Clone, Copy, Debug, PartialEq, Eq)]
pub struct MemoryAddress(pub u64);

impl DeviceAddress {
    /// As a whole number, for sums.
    pub fn whole(self) -> u128 {
        u128::from(self.0)
    }

    pub fn aligned(self) -> bool {
        self.0.is_multiple_of(PAGE)
    }
}

impl MemoryAddress {
    /// As a whole number, for sums.
    pub fn whole(self) -> u128 {
        u128::from(self.0)
    }

    pub fn aligned(self) -> bool {
        self.0.is_multiple_of(PAGE)
    }
}

/// Device addresses from `first` to below `end`.
#[derive(Clone, Copy, Debug, PartialEq, Eq)]
pub struct DeviceRange {
    pub first: u128,
    pub end: u128,
}

impl DeviceRange {
    pub fn new(device: DeviceAddress, size: u64) -> DeviceRange {
        DeviceRange {
            first: device.whole(),
            end: device.whole() + u128::from(size),
        }
    }
}

/// A mapping, and so what a record holds.
#[derive(Clone, Copy, Debug, PartialEq, Eq)]
pub struct Mapping {
    pub memory: MemoryAddress,
    pub device: DeviceAddress,
    pub size: u64,
    /// READ, WRITE or both.
    pub rights: u64,
}

impl Mapping {
    /// A record whose every byte is this one.
    pub fn filled(byte: u8) -> Mapping {
        let number = u64::from_le_bytes([byte; 8]);
        Mapping {
            memory: MemoryAddress(number),
            device: DeviceAddress(number),
            size: number,
            rights: u64::from(u32::from_le_bytes([byte; 4])),
        }
    }

    pub fn range(&self) -> DeviceRange {
        DeviceRange::new(self.device, self.size)
    }

    pub fn memory_end(&self) -> u128 {
        self.memory.whole() + u128::from(self.size)
    }

    pub fn holds(&self, address: u128) -> bool {
        self.range().first <= address && address < self.range().end
    }

    /// Whether at least one device address is in both; neither may be empty.
    pub fn shares_with(&self, other: DeviceRange) -> bool {
        self.range().first < other.end && other.first < self.range().end
    }

    pub fn lies_inside(&self, other: DeviceRange) -> bool {
        other.first <= self.range().first && self.range().end <= other.end
    }

    pub fn begins_in(&self, other: DeviceRange) -> bool {
        other.first <= self.range().first && self.range().first < other.end
    }

    /// Whether it begins before a range and holds its start. One that ends there does not hold it.
    pub fn reaches_into(&self, other: DeviceRange) -> bool {
        self.range().first < other.first && self.holds(other.first)
    }

    fn sound(&self, noted_length: u64) -> bool {
        self.memory.aligned()
            && self.device.aligned()
            && self.size.is_multiple_of(PAGE)
            && self.size > 0
            && (1..=3).contains(&self.rights)
            && self.range().end <= DEVICE_LIMIT
            && self.memory_end() <= u128::from(noted_length)
    }
}

/// The kept state, with the records that are lent beside it.
#[derive(Clone, Debug, PartialEq, Eq)]
pub struct State {
    /// The memory's length at the fresh start.
    pub noted_length: u64,
    /// All that are lent. Those past the count are stale.
    pub records: Vec<Mapping>,
    /// How many of them are in use; it may say more than there are.
    pub count: u64,
    pub running: bool,
    /// Which card it is: the words of its features.
    pub words: Words,
    /// The container's IOMMU type, by its number.
    pub iommu_type: u64,
    pub registers: Registers,
    pub lines: Lines,
}

impl State {
    /// What a fresh start of the first card on `length` bytes leaves, with records of zeros.
    pub fn fresh(length: u64) -> State {
        State::fresh_card(1, length, vec![Mapping::filled(0); DEFAULT_RECORDS])
    }

    /// What a fresh start of a card on `length` bytes leaves, with these records.
    pub fn fresh_card(words: Words, length: u64, records: Vec<Mapping>) -> State {
        State {
            noted_length: length,
            records,
            count: 0,
            running: false,
            words,
            iommu_type: TYPE1V2,
            registers: registers::reset(),
            lines: lines::disabled(),
        }
    }

    /// The records in use, as far as there are so many: the mappings that are held.
    pub fn mappings(&self) -> &[Mapping] {
        let held = u128::from(self.count).min(self.records.len() as u128);
        &self.records[..held as usize]
    }

    pub fn sound(&self) -> bool {
        u128::from(self.noted_length) <= MEMORY_LIMIT
            && self.records.len() <= RECORD_LIMIT
            && u128::from(self.count) <= self.records.len() as u128
            && self.mappings().iter().all(|m| m.sound(self.noted_length))
            && self.rising_and_apart()
            && is_iommu_type(self.iommu_type)
            && lines::sound(&self.lines)
            && registers::sound(self.words, &self.registers)
    }

    /// Each mapping ends at or below the next one's start: adjoining is apart. As none is empty,
    /// they rise.
    fn rising_and_apart(&self) -> bool {
        self.mappings()
            .windows(2)
            .all(|two| two[0].range().end <= two[1].range().first)
    }

    /// Check 1 of a call that takes no memory and marks.
    pub fn check_sound(&self) -> Answer<()> {
        refuse_if(!self.sound(), Refusal::BadBench)
    }

    /// Check 1 of a call that takes memory and marks.
    pub fn check_bench(&self, memory: &[u8], marks: &[u8]) -> Answer<()> {
        check_lengths(self.records.len(), memory.len(), marks.len())?;
        refuse_if(
            memory.len() as u128 != u128::from(self.noted_length),
            Refusal::BadBench,
        )?;
        self.check_sound()
    }
}

/// The causes of refusal 1 that a fresh start knows, too.
fn check_lengths(records: usize, memory: usize, marks: usize) -> Answer<()> {
    refuse_if(records > RECORD_LIMIT, Refusal::BadBench)?;
    refuse_if(marks != mark_bytes(memory), Refusal::BadBench)?;
    refuse_if(memory as u128 > MEMORY_LIMIT, Refusal::BadBench)
}

/// Looks at nothing of the state that it replaces, and leaves memory bytes and records untouched.
pub fn fresh_start(
    state: &mut State,
    words: Words,
    memory: &[u8],
    marks: &mut [u8],
) -> Answer<u64> {
    check_lengths(state.records.len(), memory.len(), marks.len())?;
    for place in 0..memory.len() {
        mark(marks, place, false);
    }
    let records = std::mem::take(&mut state.records);
    *state = State::fresh_card(words, memory.len() as u64, records);
    Ok(0)
}

/// Just sets the running state, whatever it was.
pub fn stop(state: &mut State) -> Answer<u64> {
    state.check_sound()?;
    state.running = false;
    Ok(0)
}

/// Just sets the running state, whatever it was.
pub fn start(state: &mut State) -> Answer<u64> {
    state.check_sound()?;
    state.running = true;
    Ok(0)
}

#[cfg(test)]
mod tests {
    use super::*;
    use crate::lines::{show_line, Line};
    use crate::moves::{card_read, card_write, forget, host_load, host_store, look_up};
    use crate::parts::{load_parts, save_parts};
    use crate::queues::walk_queue;
    use crate::registers::{read_register, set_register};
    use crate::requests::request;

    const BAD_BENCH: Answer<u64> = Err(crate::answer::Refused {
        refusal: Refusal::BadBench,
        place: 0,
    });

    fn mapping(memory: u64, device: u64, size: u64, rights: u64) -> Mapping {
        Mapping {
            memory: MemoryAddress(memory),
            device: DeviceAddress(device),
            size,
            rights,
        }
    }

    /// Two pages, and as many records as mappings are held.
    fn two_pages(mappings: Vec<Mapping>) -> State {
        State {
            count: mappings.len() as u64,
            records: mappings,
            ..State::fresh(8_192)
        }
    }

    fn unsound() -> State {
        two_pages(vec![mapping(0, 0, 4_096, 0)])
    }

    /// Rule 2.7: every call tries 1 first, also where it uses no memory, would be refused for
    /// another cause, or would have nothing to do.
    #[test]
    fn every_call_but_a_fresh_start_refuses_an_unsound_state() {
        let before = unsound();
        let mut state = unsound();
        let (mut memory, mut marks) = (vec![7; 8_192], vec![255; 1_024]);
        let buffer = &mut [0xa5; 64];
        let (device, address) = (DeviceAddress(0), MemoryAddress(0));
        let answers = [
            request(&mut state, &memory, &marks, 0, 100, buffer),
            request(&mut state, &memory, &marks, 0, 999, &mut []),
            request(&mut state, &memory, &marks, 0, 112, &mut []),
            request(&mut state, &memory, &marks, 1, 111, &mut []),
            request(&mut state, &memory, &marks, 1, 110, buffer),
            show_line(&state, 9, 9).map(|_| 0),
            look_up(&state, device).map(|_| 0).map_err(|e| e.refused),
            card_read(&state, &memory, &marks, device, buffer),
            walk_queue(&state, &memory, &marks, 9, 0, &mut []).map(|_| 0),
            card_write(&state, &mut memory, &mut marks, device, &[]),
            host_store(&state, &mut memory, &mut marks, address, &[9]),
            host_load(&state, &memory, &marks, address, buffer),
            forget(&state, &memory, &mut marks, address, u64::MAX),
            set_register(&mut state, 0x103, 0, &[1]),
            read_register(&state, 0x103, 0, buffer),
            load_parts(&mut state, &[]),
            save_parts(&state, buffer),
            stop(&mut state),
            start(&mut state),
        ];
        for (i, answer) in answers.iter().enumerate() {
            assert_eq!(*answer, BAD_BENCH, "call {i}");
        }
        assert_eq!(state, before);
        assert_eq!((memory, marks), (vec![7; 8_192], vec![255; 1_024]));
        assert_eq!(*buffer, [0xa5; 64]);
    }

    /// Rule 2.6: all three lengths must agree.
    #[test]
    fn memory_marks_and_the_noted_length_must_agree() {
        let state = State::fresh(8_192);
        let bytes = vec![0; 8_193];
        let lengths = [
            (8_191, 1_024),
            (8_192, 1_023),
            (8_192, 1_025),
            (8_192, 8_192),
            (8_193, 1_025),
            (0, 0),
            (8_184, 1_023),
        ];
        for (memory, marks) in lengths {
            let answer = state.check_bench(&bytes[..memory], &bytes[..marks]);
            assert_eq!(
                answer,
                Err(Refusal::BadBench.into()),
                "{memory} and {marks}"
            );
        }
        assert_eq!(state.check_bench(&bytes[..8_192], &bytes[..1_024]), Ok(()));
    }

    /// Rule 1.3: 2^30 is allowed, one more is not; 0 is allowed.
    #[test]
    fn memory_has_at_most_2_to_the_30_bytes() {
        let limit = 1 << 30;
        assert_eq!(check_lengths(0, limit, limit / 8), Ok(()));
        assert_eq!(
            check_lengths(0, limit + 1, limit / 8 + 1),
            Err(Refusal::BadBench.into())
        );
        assert_eq!(check_lengths(0, 0, 0), Ok(()));
    }

    /// Rule 1.10: nothing of the old state is looked at or kept.
    #[test]
    fn a_fresh_start_replaces_any_state_and_keeps_memory() {
        let mut state = unsound();
        state.running = true;
        state.iommu_type = TYPE1;
        state.lines[1][3] = Line::stored(-2);
        let memory = vec![7; 100];
        let mut marks = vec![255; 13];
        assert_eq!(fresh_start(&mut state, 1, &memory, &mut marks), Ok(0));
        assert_eq!(state, State::fresh_card(1, 100, unsound().records));
        assert_eq!((state.running, state.count), (false, 0));
        assert_eq!(state.iommu_type, 3);
        assert_eq!(memory, vec![7; 100]);
        assert_eq!(marks[..12], [0; 12]);
        assert_eq!(marks[12], 0xf0);
    }

    #[test]
    fn a_refused_fresh_start_changes_nothing() {
        let mut state = unsound();
        let mut marks = vec![1; 14];
        assert_eq!(fresh_start(&mut state, 1, &[7; 100], &mut marks), BAD_BENCH);
        assert_eq!(state, unsound());
        assert_eq!(marks, vec![1; 14]);
    }

    /// Rules 1.3 and 7.23: a mark byte for each eight bytes begun, and bits past the end are kept.
    #[test]
    fn marks_are_packed_lowest_bit_first() {
        assert_eq!([0, 1, 7, 8, 9, 11].map(mark_bytes), [0, 1, 1, 1, 2, 2]);
        let mut state = unsound();
        let mut marks = [0xff, 0xff];
        assert_eq!(fresh_start(&mut state, 1, &[7; 11], &mut marks), Ok(0));
        assert_eq!(marks, [0x00, 0xf8]);
        mark(&mut marks, 1, true);
        mark(&mut marks, 8, true);
        mark(&mut marks, 8, true);
        assert_eq!(marks, [0x02, 0xf9]);
        assert!(is_written(&marks, 1) && !is_written(&marks, 2));
    }

    /// Rule 1.12: each cause by itself; adjoining is apart, and no sum wraps.
    #[test]
    fn a_mapping_that_map_would_refuse_makes_the_state_unsound() {
        let wrong = [
            ("rights 0", mapping(0, 0, 4_096, 0)),
            ("rights 4", mapping(0, 0, 4_096, 4)),
            ("empty", mapping(0, 0, 0, 3)),
            ("memory address not aligned", mapping(1, 0, 4_096, 3)),
            ("device address not aligned", mapping(0, 1, 4_096, 3)),
            ("size not aligned", mapping(0, 0, 4_097, 3)),
            ("past memory", mapping(4_096, 0, 8_192, 3)),
            ("past 2^48", mapping(0, (1 << 48) - 4_096, 8_192, 3)),
            (
                "device sum of 2^64",
                mapping(0, 0u64.wrapping_sub(4_096), 4_096, 3),
            ),
            (
                "memory sum of 2^64",
                mapping(0u64.wrapping_sub(4_096), 0, 4_096, 3),
            ),
        ];
        for (name, entry) in wrong {
            assert!(!two_pages(vec![entry]).sound(), "{name}");
        }
        assert!(two_pages(vec![mapping(4_096, (1 << 48) - 4_096, 4_096, 1)]).sound());
    }

    #[test]
    fn mappings_must_rise_and_lie_apart_but_may_adjoin() {
        let low = mapping(0, 0, 8_192, 3);
        let high = mapping(0, 8_192, 4_096, 3);
        let inner = mapping(0, 4_096, 4_096, 3);
        assert!(two_pages(vec![low, high]).sound());
        assert!(!two_pages(vec![high, low]).sound());
        assert!(!two_pages(vec![low, inner]).sound());
        assert!(!two_pages(vec![low, low]).sound());
    }

    fn many(count: u64) -> Vec<Mapping> {
        (0..count)
            .map(|i| mapping(0, i * 4_096, 4_096, 3))
            .collect()
    }

    /// Rules 1.8 and 2.6: 4,096 records may be lent, 4,097 may not, used or not; a fresh start asks it too.
    #[test]
    fn at_most_4096_records_are_lent() {
        assert!(two_pages(many(4_096)).sound());
        let mut state = two_pages(many(4_097));
        assert!(!state.sound());
        state.count = 0;
        assert!(!state.sound());
        let before = state.clone();
        assert_eq!(fresh_start(&mut state, 1, &[], &mut []), BAD_BENCH);
        assert_eq!(state, before);
        state.records.pop();
        state.count = u64::MAX;
        let records = state.records.clone();
        assert_eq!(fresh_start(&mut state, 1, &[], &mut []), Ok(0));
        assert_eq!((state.count, &state.records), (0, &records));
    }

    /// Rules 1.12 and 1.17: the count is no more than there are records, and stale ones are not judged.
    #[test]
    fn records_past_the_count_may_hold_anything() {
        let mut state = two_pages(many(3));
        state.records.push(mapping(1, 1, 1, 9));
        assert!(state.sound());
        for count in [4, 5, u64::MAX] {
            state.count = count;
            assert!(!state.sound(), "{count}");
        }
        assert_eq!(state.mappings().len(), 4);
        state.records.clear();
        assert!(!state.sound());
        state.count = 0;
        assert!(state.sound(), "no records at all");
    }

    /// Rule 1.12: a condition of its own, also with an empty table.
    #[test]
    fn a_noted_length_over_2_to_the_30_is_unsound() {
        assert!(State::fresh(1 << 30).sound());
        assert!(!State::fresh((1 << 30) + 1).sound());
    }

    /// Rule 1.19: 1 or 3, all four bytes of it.
    #[test]
    fn the_iommu_type_of_a_sound_state_is_1_or_3() {
        let of_type = |iommu_type| State {
            iommu_type,
            ..State::fresh(8_192)
        };
        assert!(of_type(1).sound() && of_type(3).sound());
        for number in [0, 2, 4, 0x101, 0x103, 0x0100_0000, 0x0300_0001, 0xffff_ffff] {
            assert!(!of_type(number).sound(), "{number}");
        }
    }

    /// Rule 1.12: values of set registers count; status must be set.
    #[test]
    fn the_registers_of_a_sound_state_hold_acceptable_values() {
        let with = |kind, selector, value: &[u8]| {
            let mut state = State::fresh(0);
            state.registers.insert((kind, selector), value.to_vec());
            state
        };
        let mut queue = [0; 32];
        queue[0] = 3;
        assert!(!with(0x104, 0, &queue).sound(), "queue size 3");
        queue[0] = 4;
        assert!(with(0x104, 0, &queue).sound(), "queue size 4");
        assert!(!with(0x104, 4, &queue).sound(), "no queue 4");
        assert!(!with(0x101, 0, &[1, 0, 0, 0, 0, 0, 0, 0]).sound(), "bit 0");
        assert!(!with(0x102, 16, &[0; 4]).sound(), "4 bytes for 2");
        let mut state = State::fresh(0);
        state.registers.remove(&(0x103, 0));
        assert!(!state.sound(), "status not set");
    }

    /// Rule 5.8: no other check.
    #[test]
    fn a_stopped_card_may_be_stopped_and_a_running_one_started() {
        let mut state = State::fresh(0);
        assert_eq!(stop(&mut state), Ok(0));
        assert!(!state.running);
        assert_eq!(start(&mut state), Ok(0));
        assert_eq!(start(&mut state), Ok(0));
        assert!(state.running);
    }
}
