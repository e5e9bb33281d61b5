//! What must happen in a run beyond the pairs: the cases that are easily got wrong, and the edges at
//! which a call is still accepted.

use std::fmt::Write;

use glint_reference::bench::{mark_bytes, DeviceAddress, DeviceRange, Mapping, PAGE};
use glint_reference::bytes::number_at;
use glint_reference::lines::{self, Line, Lines};
use glintbasket::raw::SLOTS;

use crate::call::{Answer, Call, Made, Step};
use crate::interrupts::{self, Fields};
use crate::queues::{Queue, INDIRECT, NEXT};
use crate::trio::Trio;

const TOP: u64 = 1 << 48;
const LONGEST: usize = 65_536;

#[rustfmt::skip]
pub const EVENTS: [&str; 169] = [
    "card read of 65,536 bytes accepted",
    "card write of 65,536 bytes accepted",
    "host store of 65,536 bytes accepted",
    "host load of 65,536 bytes accepted",
    "card move of 0 bytes at 2^48 accepted",
    "host move of 0 bytes at the end of memory accepted",
    "forget of 0 bytes at the end of memory accepted",
    "card move over several mappings accepted",
    "card write that stores a byte twice",
    "fault of a move behind a mapping's end",
    "map that encloses a held mapping gives 10",
    "map whose end wraps gives 9",
    "map that ends at 2^48 accepted",
    "map as the 64th accepted",
    "map between two held mappings accepted",
    "unmap of the whole device space accepted",
    "unmap of several mappings at once",
    "unmap of nothing accepted",
    "stream of 65,536 bytes accepted",
    "load that unsets a register",
    "save into exactly enough room",
    "container 101 with 3 gives 1",
    "container 101 with another number gives 0",
    "fresh start with a bit set past the end accepted",
    "save of a state whose byte for running is above 1 accepted",
    "read of a register whose byte for set is above 1 gives 25",
    "queue of size 0 set",
    "enabled queue of size 0 gives 22 when set",
    "load that leaves a queue of size 0",
    "save of a queue of size 0",
    "fresh start of the second card",
    "save of the second card",
    "load into the second card",
    "load of the other card's offered features gives 22",
    "fresh start with a mark byte too few gives 1",
    "fresh start with a mark byte too many gives 1",
    "fresh start with as many mark bytes as memory bytes gives 1",
    "fresh start on 8 n bytes accepted",
    "fresh start on 8 n + 1 bytes accepted",
    "fresh start on 8 n + 2 bytes accepted",
    "fresh start on 8 n + 3 bytes accepted",
    "fresh start on 8 n + 4 bytes accepted",
    "fresh start on 8 n + 5 bytes accepted",
    "fresh start on 8 n + 6 bytes accepted",
    "fresh start on 8 n + 7 bytes accepted",
    "host store up to the end, with a bit clear past it",
    "forget up to the end, with a bit set past it",
    "host store inside one mark byte",
    "map refused for want of room with 0 records",
    "map refused for want of room with 1 record",
    "map refused for want of room with 63 records",
    "map refused for want of room with 64 records",
    "map refused for want of room with 65 records",
    "map refused for want of room with 4,095 records",
    "map refused for want of room with 4,096 records",
    "map into the last of 1 record accepted",
    "map into the last of 63 records accepted",
    "map into the last of 64 records accepted",
    "map into the last of 65 records accepted",
    "map into the last of 4,095 records accepted",
    "map into the last of 4,096 records accepted",
    "fresh start with no record accepted",
    "fresh start with 4,096 records accepted",
    "fresh start with 4,097 records gives 1",
    "request with 4,097 records gives 1",
    "request with one record fewer than are in use gives 1",
    "card move with as many records as are in use accepted",
    "card move with other records than at the last call accepted",
    "unmap below mappings that stay, with stale records behind them",
    "look-up among 4,096 mappings accepted",
    "look-up between a mapping's first byte and its last",
    "look-up of a mapping's last byte",
    "look-up of the last byte of a mapping that another adjoins",
    "look-up with more than a page left in a mapping that another adjoins",
    "look-up gives 14 among 0 mappings",
    "look-up gives 14 among 1 mapping",
    "look-up gives 14 among 2 mappings",
    "look-up gives 14 among 64 mappings",
    "look-up gives 14 among 4,096 mappings",
    "look-up below all of several mappings",
    "look-up between two mappings",
    "look-up above all of several mappings",
    "look-up finds the first mapping that it looks at, of several",
    "look-up finds the last of 7 mappings that it looks at, among 64",
    "look-up finds the last of 13 mappings that it looks at, among 4,096",
    "look-up gives 14 after 13 mappings that it looks at, among 4,096",
    "container 101 with 1 gives 1",
    "container 102 makes Type1 of Type1v2",
    "container 102 makes Type1v2 of Type1",
    "container 102 with the type that there is accepted",
    "container 102 with the type that there is gives 5 while mappings are held",
    "container 102 with the other type gives 5 while mappings are held",
    "container 102 with a type and a high byte gives 5",
    "reset under Type1 accepted",
    "fresh start on a state of Type1 accepted",
    "unmap under Type1 blocked",
    "unmap under Type1 blocked, with a mapping further up in the range",
    "unmap under Type1 that one mapping encloses",
    "unmap under Type1 of a mapping that begins at the range's start",
    "unmap under Type1 of a mapping that begins at the range's start and ends beyond",
    "unmap under Type1 of a mapping that begins further up and ends beyond",
    "unmap under Type1 with a mapping that ends at the range's start",
    "unmap under Type1 with a mapping that begins at the range's end",
    "unmap under Type1 reports more than was asked for",
    "unmap under Type1 of several mappings at once, the last of which ends beyond",
    "unmap under Type1 of nothing, with nothing that blocks",
    "unmap under Type1 between mappings that stay",
    "trigger that a line counts, and is not masked by",
    "trigger that a line counts, and is masked by",
    "trigger of a masked line, which becomes pending",
    "trigger of a masked line that is pending",
    "trigger of a pending line that is not masked",
    "trigger of a line with the greatest tally",
    "trigger of a line without a number",
    "mask of a line",
    "unmask of a masked line with nothing pending",
    "unmask of a masked line that is pending",
    "unmask of a pending line that is not masked",
    "mask or unmask of a line without a number",
    "event number stored over another",
    "-1 stored over an event number",
    "byte above 1 that selects a line with a number",
    "byte 0 that leaves a line with a number",
    "index disabled with start above 0",
    "index without lines disabled",
    "device 110 with no data and bytes behind its fields accepted",
    "device 110 with a number below -1 behind those that count accepted",
    "device 110 gives 5 for event numbers without trigger",
    "device 110 gives 5 for an index that is not maskable",
    "device 110 gives 9 with count 0",
    "device 110 gives 9 where start + count would wrap to lines that there are",
    "device 110 gives 4 for data past argsz, which the buffer has",
    "device 110 gives 22 for a number behind good ones",
    "reset with a line set up accepted",
    "fresh start with a line set up accepted",
    "load with a line set up accepted",
    "line shown whose byte for a flag is above 1",
    "walk that finds nothing new",
    "walk of as many heads as the queue has descriptors",
    "walk past index 65,535",
    "walk of a chain of as many descriptors as the queue has",
    "walk of several heads, one of them with a chain",
    "walk of a queue of 256 descriptors",
    "walk of a ring whose flags nobody wrote",
    "walk while the device runs",
    "walk of descriptors in two mappings",
    "walk into an array with just enough room",
    "walk into an array with more room than is needed",
    "walk gives 27 for one number too few",
    "walk gives 29 for one head more than the queue has descriptors",
    "walk gives 29 for an index just below the last one",
    "walk gives 30 for a head that is the size",
    "walk gives 30 for a next that is the size",
    "walk gives 30 behind heads that are finished",
    "walk gives 31 for a chain that leads back",
    "walk gives 31 for a chain that leads nowhere",
    "walk gives 31 behind heads that are finished",
    "walk gives 32 for a descriptor that ends its chain",
    "walk gives 32 for a descriptor behind which its chain is too long",
    "walk gives 32 behind heads that are finished",
    "walk gives 16 for the ring's index",
    "walk gives 16 for a head",
    "walk gives 16 for the next of a descriptor that ends its chain",
    "walk gives 9 where its read begins",
    "walk gives 9 for a read that begins past 2^64 - 1",
    "walk gives 28 for a queue that is not set",
    "walk gives 28 for a queue whose byte for set is above 1",
    "walk gives 28 for a queue that is not enabled",
    "walk gives 28 for a queue of size 0",
];

const FEW_MARKS: usize = 34;
const MANY_MARKS: usize = 35;
const WIDE_MARKS: usize = 36;
const LENGTHS: usize = 37;
const STORE_TO_END: usize = 45;
const FORGET_TO_END: usize = 46;
const STORE_WITHIN: usize = 47;
/// Of a map that finds no room, and of one that takes the last record: by the number of records.
const NO_ROOM: usize = 48;
const LAST_RECORD: usize = 54;
const RECORDS: [usize; 7] = [0, 1, 63, 64, 65, 4095, 4096];
const START_WITH_NONE: usize = 61;
const START_WITH_ALL: usize = 62;
const START_WITH_MORE: usize = 63;
const REQUEST_WITH_MORE: usize = 64;
const TOO_FEW_RECORDS: usize = 65;
const JUST_ENOUGH: usize = 66;
const EXCHANGED: usize = 67;
const MOVED_DOWN: usize = 68;
const LOOK_UP_AMONG_ALL: usize = 69;
const LOOK_UP_WITHIN: usize = 70;
const LOOK_UP_LAST: usize = 71;
const LOOK_UP_LAST_ADJOINED: usize = 72;
const LOOK_UP_LONG_ADJOINED: usize = 73;
/// Of a look-up that finds nothing: by the number of mappings held.
const NOT_FOUND: usize = 74;
const HELD: [usize; 5] = [0, 1, 2, 64, 4096];
const BELOW_ALL: usize = 79;
const BETWEEN: usize = 80;
const ABOVE_ALL: usize = 81;
const FOUND_AT_ONCE: usize = 82;
const FOUND_LAST_OF_7: usize = 83;
const FOUND_LAST_OF_13: usize = 84;
const NOT_FOUND_AFTER_13: usize = 85;
const TYPE1_EXTENSION: usize = 86;
const TO_TYPE1: usize = 87;
const TO_TYPE1V2: usize = 88;
const SAME_TYPE: usize = 89;
const SAME_TYPE_HELD: usize = 90;
const OTHER_TYPE_HELD: usize = 91;
const HIGH_BYTE: usize = 92;
const TYPE1_RESET: usize = 93;
const TYPE1_START: usize = 94;
const BLOCKED: usize = 95;
const BLOCKED_BELOW: usize = 96;
const ENCLOSED: usize = 97;
const BEGINS_AT_START: usize = 98;
const BEYOND_FROM_START: usize = 99;
const BEYOND_FROM_WITHIN: usize = 100;
const ENDS_AT_START: usize = 101;
const BEGINS_AT_END: usize = 102;
const MORE_THAN_ASKED: usize = 103;
const SEVERAL_BEYOND: usize = 104;
const NONE_BLOCKS: usize = 105;
const RUN_BETWEEN: usize = 106;
const COUNTED: usize = 107;
const AUTOMASKED: usize = 108;
const NOTED: usize = 109;
const NOTED_AGAIN: usize = 110;
const COUNTED_PENDING: usize = 111;
const TALLY_WRAPS: usize = 112;
const TRIGGERED_OFF: usize = 113;
const MASKED: usize = 114;
const UNMASKED: usize = 115;
const UNMASKED_PENDING: usize = 116;
const PENDING_ALONE: usize = 117;
const MASKED_OFF: usize = 118;
const STORED_OVER: usize = 119;
const STORED_NONE: usize = 120;
const BYTE_ABOVE_1: usize = 121;
const BYTE_0: usize = 122;
const DISABLED_BEHIND: usize = 123;
const DISABLED_NONE: usize = 124;
const BYTES_BEHIND: usize = 125;
const LOW_BEHIND: usize = 126;
const NO_TRIGGER: usize = 127;
const NOT_MASKABLE: usize = 128;
const RANGE_EMPTY: usize = 129;
const RANGE_WRAPS: usize = 130;
const FEW_DATA: usize = 131;
const LATER_LOW: usize = 132;
const RESET_LINES: usize = 133;
const START_LINES: usize = 134;
const LOAD_LINES: usize = 135;
const SHOWN_ABOVE_1: usize = 136;
const NOTHING_NEW: usize = 137;
const FULL_RING: usize = 138;
const PAST_65535: usize = 139;
const LONGEST_CHAIN: usize = 140;
const HEADS_AND_CHAIN: usize = 141;
const LARGEST_QUEUE: usize = 142;
const RING_FLAGS: usize = 143;
const WALK_RUNNING: usize = 144;
const SEVERAL_TABLES: usize = 145;
const EXACT_ARRAY: usize = 146;
const LONG_ARRAY: usize = 147;
const SHORT_ARRAY: usize = 148;
const ONE_TOO_FAR: usize = 149;
const ONE_BEHIND: usize = 150;
const HEAD_OF_SIZE: usize = 151;
const NEXT_OF_SIZE: usize = 152;
const INDEX_LATER: usize = 153;
const LOOP: usize = 154;
const LONG_AND_BEYOND: usize = 155;
const LONG_LATER: usize = 156;
const INDIRECT_END: usize = 157;
const INDIRECT_LONG: usize = 158;
const INDIRECT_LATER: usize = 159;
const UNWRITTEN_INDEX: usize = 160;
const UNWRITTEN_HEAD: usize = 161;
const UNWRITTEN_NEXT: usize = 162;
const READ_PAST: usize = 163;
const READ_CAPPED: usize = 164;
const QUEUE_UNSET: usize = 165;
const QUEUE_SET_ABOVE: usize = 166;
const QUEUE_DISABLED: usize = 167;
const QUEUE_EMPTY: usize = 168;

pub struct Events {
    counts: [u64; EVENTS.len()],
}

impl Default for Events {
    fn default() -> Events {
        Events {
            counts: [0; EVENTS.len()],
        }
    }
}

/// What has to be known from before the call.
#[derive(Default)]
pub struct Before {
    held: usize,
    registers: usize,
    /// Of a card move: how many mappings it meets, and whether two of them show one byte.
    met: usize,
    twice: bool,
    /// Of a map: whether it encloses a held mapping.
    encloses: bool,
    /// Of a map: how many held mappings lie below it.
    below: usize,
    /// Of an unmap: the mappings held.
    mappings: Vec<Mapping>,
    iommu_type: u64,
    /// Of request 110: the lines.
    lines: Lines,
    /// Whether a line is not as a reset leaves it.
    lines_set_up: bool,
    /// Whether the records are others than at the last call.
    exchanged: bool,
    /// The flags of the kept struct: whether the one for running is above 1, and whether each register's is.
    running_above: bool,
    set_above: [bool; SLOTS.len()],
}

/// Whether a queue of size 0 is set.
fn has_empty_queue(trio: &Trio) -> bool {
    let registers = &trio.state.registers;
    registers
        .iter()
        .any(|(&(kind, _), value)| kind == 0x104 && value[..2] == [0, 0])
}

impl Events {
    pub fn before(step: &Step, trio: &Trio) -> Before {
        let state = &trio.state;
        let mut before = Before {
            held: state.mappings().len(),
            registers: state.registers.len(),
            iommu_type: state.iommu_type,
            lines_set_up: state.lines.iter().flatten().any(|l| *l != Line::disabled()),
            exchanged: trio.exchanged,
            running_above: trio.kept().state.running > 1,
            set_above: trio.kept().state.registers.slots.map(|r| r.set > 1),
            ..Before::default()
        };
        let Step::Make(made) = step else {
            return before;
        };
        match made.call {
            Call::CardRead { device } | Call::CardWrite { device } => {
                let range = DeviceRange::new(DeviceAddress(device), made.buffer.len() as u64);
                let met: Vec<_> = state
                    .mappings()
                    .iter()
                    .filter(|m| range.first < range.end && m.shares_with(range))
                    .collect();
                before.met = met.len();
                before.twice = met.windows(2).any(|two| two[0].memory == two[1].memory)
                    && made.buffer.len() > 4096 + 64;
            }
            Call::Request {
                target: 0,
                number: 113,
            } if made.buffer.len() >= 32 => {
                let device = u128::from(number_at(&made.buffer, 16, 8));
                let end = device + u128::from(number_at(&made.buffer, 24, 8));
                before.encloses = state
                    .mappings()
                    .iter()
                    .any(|m| device < m.range().first && m.range().end < end);
                before.below = state
                    .mappings()
                    .iter()
                    .filter(|m| m.range().first < device)
                    .count();
            }
            Call::Request {
                target: 0,
                number: 114,
            } => before.mappings = state.mappings().to_vec(),
            interrupts::SET_IRQS => before.lines = state.lines.clone(),
            _ => {}
        }
        before
    }

    pub fn count(&mut self, before: Before, made: &Made, answer: &Answer, trio: &Trio) {
        if made.given.is_some() {
            return;
        }
        let length = made.buffer.len();
        let noted = trio.state.noted_length;
        let field = |at| number_at(&made.buffer, at, 8);
        let done = answer.refusal().is_none();
        let refused = answer.refusal().unwrap_or(0);
        let (records, held) = (made.lent.records, before.held);
        let by_records = RECORDS.iter().position(|length| *length == records);
        // The bits past the end, as the call left them.
        let past: Vec<bool> = trio.bits_past_end();
        match made.call {
            Call::FreshStart { .. } => {
                self.saw(30, done && trio.state.words == 2);
                self.saw(TYPE1_START, done && before.iommu_type == 1);
                self.saw(START_LINES, done && before.lines_set_up);
                let (memory, marks) = (made.lent.memory, made.lent.marks);
                self.saw(START_WITH_NONE, done && records == 0);
                self.saw(START_WITH_ALL, done && records == 4096);
                let good = marks == mark_bytes(memory);
                self.saw(START_WITH_MORE, refused == 1 && records == 4097 && good);
                self.saw(23, done && past.contains(&true));
                self.saw(FEW_MARKS, refused == 1 && marks + 1 == mark_bytes(memory));
                self.saw(MANY_MARKS, refused == 1 && marks == mark_bytes(memory) + 1);
                self.saw(WIDE_MARKS, refused == 1 && marks == memory);
                self.saw(LENGTHS + memory % 8, done);
            }
            Call::CardRead { device } | Call::CardWrite { device } => {
                let write = matches!(made.call, Call::CardWrite { .. });
                self.saw(0, done && !write && length == LONGEST);
                self.saw(1, done && write && length == LONGEST);
                self.saw(4, done && length == 0 && device == TOP);
                self.saw(7, done && before.met > 1);
                self.saw(JUST_ENOUGH, done && length > 0 && records == held);
                self.saw(EXCHANGED, done && length > 0 && before.exchanged);
                self.saw(8, done && write && before.twice);
                if let Answer::Refused {
                    code: 14..=16,
                    place,
                } = answer
                {
                    let first = trio
                        .state
                        .mappings()
                        .iter()
                        .find(|m| m.holds(device.into()));
                    let left = first.map_or(u128::MAX, |m| m.range().end - u128::from(device));
                    self.saw(9, u128::from(*place) >= left);
                }
            }
            Call::HostStore { address } => {
                self.saw(2, done && length == LONGEST);
                self.saw(5, done && length == 0 && address == noted);
                let end = address.wrapping_add(length as u64);
                self.saw(
                    STORE_TO_END,
                    done && length > 0 && end == noted && past.contains(&false),
                );
                self.saw(
                    STORE_WITHIN,
                    done && address % 8 > 0 && length > 0 && end % 8 > address % 8 && length < 8,
                );
            }
            Call::HostLoad { address } => {
                self.saw(3, done && length == LONGEST);
                self.saw(5, done && length == 0 && address == noted);
            }
            Call::Request {
                target: 0,
                number: 101,
            } if length >= 4 => {
                let number = number_at(&made.buffer, 0, 4);
                self.saw(21, number == 3 && *answer == Answer::Done(1));
                self.saw(TYPE1_EXTENSION, number == 1 && *answer == Answer::Done(1));
                self.saw(22, *answer == Answer::Done(0));
            }
            Call::Request {
                target: 0,
                number: 102,
            } if length >= 4 => {
                self.asked_for(number_at(&made.buffer, 0, 4), &before, answer);
            }
            Call::Request {
                target: 1,
                number: 111,
            } => {
                self.saw(TYPE1_RESET, done && before.iommu_type == 1);
                self.saw(RESET_LINES, done && before.lines_set_up);
            }
            interrupts::SET_IRQS if length >= 20 => {
                let fields = Fields::read(&made.buffer);
                match answer.refusal() {
                    None => self.lines_changed(&fields, &made.buffer, &before.lines),
                    Some(refusal) => self.lines_refused(&fields, &made.buffer, refusal),
                }
            }
            Call::ShowLine { index, line } if done => {
                let line = trio.state.lines[index as usize][line as usize];
                self.saw(SHOWN_ABOVE_1, line.masked > 1 || line.pending > 1);
            }
            Call::WalkQueue { queue, last } => {
                let value = trio.state.registers.get(&(0x104, queue.into()));
                let queue_of = value.map(|value| Queue::read(value));
                match queue_of {
                    Some(queue) if queue.enabled => {
                        self.walked(&queue, last, made.buffer.len() as u64 / 8, answer, trio);
                    }
                    other => {
                        let above = queue < 4 && before.set_above[6 + queue as usize];
                        self.saw(QUEUE_UNSET, refused == 28 && other.is_none());
                        self.saw(QUEUE_SET_ABOVE, refused == 28 && above);
                        let size = other.map(|queue| queue.size);
                        self.saw(QUEUE_DISABLED, refused == 28 && size > Some(0));
                        self.saw(QUEUE_EMPTY, refused == 28 && size == Some(0));
                    }
                }
            }
            Call::Forget { address, length } => {
                self.saw(6, done && length == 0 && address == noted);
                let end = address.checked_add(length);
                self.saw(
                    FORGET_TO_END,
                    done && length > 0 && end == Some(noted) && past.contains(&true),
                );
            }
            Call::Request {
                target: 0,
                number: 113,
            } if length >= 32 => {
                let (device, size) = (field(16), field(24));
                self.saw(10, refused == 10 && before.encloses);
                self.saw(11, refused == 9 && device.checked_add(size).is_none());
                self.saw(12, done && device.checked_add(size) == Some(TOP));
                self.saw(13, done && before.held == 63);
                self.saw(14, done && before.below > 0 && before.below < before.held);
                let good = made.lent.memory as u64 == noted;
                self.saw(REQUEST_WITH_MORE, refused == 1 && records == 4097 && good);
                self.saw(TOO_FEW_RECORDS, refused == 1 && records + 1 == held && good);
                if let Some(i) = by_records {
                    self.saw(NO_ROOM + i, refused == 11);
                    self.saw(LAST_RECORD + i, done && i > 0 && held + 1 == records);
                }
            }
            Call::Request {
                target: 0,
                number: 114,
            } if length >= 24 => {
                let (device, size) = (field(8), field(16));
                let left = trio.state.mappings();
                let removed = held - left.len();
                let above = left.iter().any(|m| m.device.0 > device);
                self.saw(15, done && device == 0 && size == TOP);
                self.saw(16, done && removed > 1);
                self.saw(17, done && removed == 0);
                self.saw(MOVED_DOWN, done && removed > 0 && above && held < records);
                if done && before.iommu_type == 1 {
                    let range = DeviceRange::new(DeviceAddress(device), size);
                    self.unmapped_type1(range, &before.mappings);
                }
            }
            Call::LookUp { device } => {
                let mappings = trio.state.mappings();
                match *answer {
                    Answer::Found { left, probes, .. } => {
                        self.found_after(probes, held);
                        self.found(device, left, mappings);
                    }
                    Answer::NotFound { probes, .. } => self.not_found(device, probes, mappings),
                    _ => {}
                }
            }
            Call::LoadParts => {
                self.saw(18, done && length == LONGEST);
                self.saw(19, done && trio.state.registers.len() < before.registers);
                self.saw(LOAD_LINES, done && before.lines_set_up);
                self.saw(28, done && has_empty_queue(trio));
                self.saw(32, done && trio.state.words == 2);
                // A stream that begins with them.
                let other = 8 * (3 - trio.state.words);
                let begins = length >= 16
                    && made.buffer[..4] == [0, 1, 1, 0]
                    && number_at(&made.buffer, 4, 8) == 0
                    && number_at(&made.buffer, 12, 4) == other;
                let at_start = *answer == Answer::Refused { code: 22, place: 0 };
                self.saw(33, begins && at_start);
            }
            Call::SaveParts => {
                self.saw(20, *answer == Answer::Done(length as u64));
                self.saw(24, done && before.running_above);
                self.saw(29, done && has_empty_queue(trio));
                self.saw(31, done && trio.state.words == 2);
            }
            Call::SetRegister { kind: 0x104, .. } if length == 32 => {
                let empty = made.buffer[..2] == [0, 0];
                self.saw(26, done && empty);
                self.saw(
                    27,
                    refused == 22 && empty && made.buffer[4..8] == [1, 0, 0, 0],
                );
            }
            Call::ReadRegister { kind, selector } => {
                let slot = SLOTS
                    .iter()
                    .position(|(k, s, _)| (*k, *s) == (kind, selector));
                let above = slot.is_some_and(|i| before.set_above[i]);
                self.saw(25, refused == 25 && above);
            }
            _ => {}
        }
    }

    /// Of request 102 with a number.
    fn asked_for(&mut self, number: u64, before: &Before, answer: &Answer) {
        let done = *answer == Answer::Done(0);
        let refused = answer.refusal() == Some(5);
        let same = number == before.iommu_type;
        self.saw(TO_TYPE1, done && !same && number == 1);
        self.saw(TO_TYPE1V2, done && !same && number == 3);
        self.saw(SAME_TYPE, done && same);
        let held = refused && before.held > 0;
        self.saw(SAME_TYPE_HELD, held && same);
        self.saw(OTHER_TYPE_HELD, held && !same && matches!(number, 1 | 3));
        let high = number > 0xff && matches!(number & 0xff, 1 | 3);
        self.saw(HIGH_BYTE, refused && before.held == 0 && high);
    }

    /// Of an unmap that a container of Type1 accepted while it held these mappings.
    fn unmapped_type1(&mut self, range: DeviceRange, held: &[Mapping]) {
        let any = |test: &dyn Fn(&Mapping) -> bool| held.iter().any(test);
        let begun: Vec<_> = held.iter().filter(|m| m.begins_in(range)).collect();
        self.saw(ENDS_AT_START, any(&|m| m.range().end == range.first));
        self.saw(BEGINS_AT_END, any(&|m| m.range().first == range.end));
        if any(&|m| m.reaches_into(range)) {
            self.saw(BLOCKED, true);
            self.saw(BLOCKED_BELOW, !begun.is_empty());
            let encloses = |m: &Mapping| m.reaches_into(range) && range.end < m.range().end;
            self.saw(ENCLOSED, any(&encloses));
            return;
        }
        self.saw(NONE_BLOCKS, begun.is_empty());
        let (Some(first), Some(last)) = (begun.first(), begun.last()) else {
            return;
        };
        let at_start = first.range().first == range.first;
        let beyond = last.range().end > range.end;
        self.saw(BEGINS_AT_START, at_start);
        self.saw(BEYOND_FROM_START, at_start && beyond && begun.len() == 1);
        self.saw(
            BEYOND_FROM_WITHIN,
            beyond && last.range().first > range.first,
        );
        self.saw(SEVERAL_BEYOND, beyond && begun.len() > 1);
        let sizes: u128 = begun.iter().map(|m| u128::from(m.size)).sum();
        self.saw(MORE_THAN_ASKED, sizes > range.end - range.first);
        let around = held[0] != **first && held[held.len() - 1] != **last;
        self.saw(RUN_BETWEEN, around);
    }

    /// Of a request 110 that was accepted on these lines.
    fn lines_changed(&mut self, fields: &Fields, buffer: &[u8], lines: &Lines) {
        if fields.disables() {
            self.saw(DISABLED_BEHIND, fields.start > 0);
            self.saw(DISABLED_NONE, fields.index == 3);
            return;
        }
        let no_data = fields.kind == interrupts::NONE;
        self.saw(BYTES_BEHIND, no_data && buffer.len() > 20);
        let (first, count) = (fields.start as usize, fields.count as usize);
        let range = &lines[fields.index as usize][first..first + count];
        for (offset, line) in range.iter().enumerate() {
            let assigned = line.number >= 0;
            match fields.kind {
                interrupts::EVENT => {
                    let number = interrupts::event_at(buffer, offset);
                    self.saw(STORED_OVER, assigned && number >= Some(0));
                    self.saw(STORED_NONE, assigned && number == Some(-1));
                }
                interrupts::BOOL if buffer[20 + offset] == 0 => self.saw(BYTE_0, assigned),
                _ => {
                    let above_1 = !no_data && buffer[20 + offset] > 1;
                    self.saw(BYTE_ABOVE_1, above_1 && assigned);
                    self.acted_on(line, fields);
                }
            }
        }
        if fields.kind == interrupts::EVENT {
            let behind = interrupts::event_at(buffer, count);
            self.saw(LOW_BEHIND, behind.is_some_and(|number| number < -1));
        }
    }

    /// Of a line that request 110 selected.
    fn acted_on(&mut self, line: &Line, fields: &Fields) {
        let (masked, pending) = (line.is_masked(), line.is_pending());
        let triggers = fields.action == interrupts::TRIGGER;
        if line.number < 0 {
            self.saw(TRIGGERED_OFF, triggers);
            self.saw(MASKED_OFF, !triggers);
        } else if triggers {
            self.saw(COUNTED, !masked && fields.index > 0);
            self.saw(AUTOMASKED, !masked && fields.index == 0);
            self.saw(NOTED, masked && !pending);
            self.saw(NOTED_AGAIN, masked && pending);
            self.saw(COUNTED_PENDING, !masked && pending);
            self.saw(TALLY_WRAPS, !masked && line.tally == u64::from(u32::MAX));
        } else if fields.action == interrupts::MASK {
            self.saw(MASKED, !masked);
        } else {
            self.saw(UNMASKED, masked && !pending);
            self.saw(UNMASKED_PENDING, masked && pending);
            self.saw(PENDING_ALONE, !masked && pending);
        }
    }

    /// Of a request 110 that was refused.
    fn lines_refused(&mut self, fields: &Fields, buffer: &[u8], refusal: u64) {
        let (start, count) = (fields.start, fields.count);
        let one_each = fields.is_one_kind_and_action();
        let no_trigger = one_each && fields.action != interrupts::TRIGGER;
        let events = fields.kind == interrupts::EVENT;
        self.saw(NO_TRIGGER, refusal == 5 && no_trigger && events);
        self.saw(NOT_MASKABLE, refusal == 5 && no_trigger && !events);
        self.saw(RANGE_EMPTY, refusal == 9 && count == 0);
        if let Some((lines, _)) = lines::INDICES.get(fields.index as usize) {
            let wraps = start + count > u64::from(u32::MAX);
            let wrapped = (start + count) % (1 << 32);
            self.saw(RANGE_WRAPS, refusal == 9 && wraps && wrapped <= *lines);
        }
        let needed = 20 + count.saturating_mul(fields.width());
        let argsz = number_at(buffer, 0, 4);
        let has_them = argsz >= 20 && needed <= buffer.len() as u64;
        self.saw(FEW_DATA, refusal == 4 && has_them && argsz < needed);
        let good = |offset| interrupts::event_at(buffer, offset) >= Some(-1);
        self.saw(LATER_LOW, refusal == 22 && good(0));
    }

    /// Of a walk of a queue that is set and enabled, into so many numbers. It left all as it was.
    fn walked(&mut self, queue: &Queue, last: u16, room: u64, answer: &Answer, trio: &Trio) {
        let distance = queue.distance(last, trio);
        // The chain of the head so many places behind the last index.
        let chain = |i| {
            let head = queue.head(u64::from(last) + i, trio)?;
            Some((head, queue.chain(head, trio)))
        };
        match *answer {
            Answer::Walked { buffers, index } => {
                let heads = distance.unwrap_or(0);
                let lengths: Vec<u64> = (0..heads)
                    .filter_map(chain)
                    .map(|(_, chain)| chain.len() as u64)
                    .collect();
                self.saw(NOTHING_NEW, buffers == 0);
                self.saw(FULL_RING, heads == queue.size);
                self.saw(PAST_65535, heads > 0 && index < u64::from(last));
                let longest = lengths.iter().max().copied().unwrap_or(0);
                self.saw(LONGEST_CHAIN, longest > 1 && longest == queue.size);
                self.saw(HEADS_AND_CHAIN, heads > 1 && longest > 1);
                self.saw(LARGEST_QUEUE, buffers > 1 && queue.size == 256);
                let flags = trio.shown_number(queue.driver, 2);
                self.saw(RING_FLAGS, buffers > 0 && flags.is_none());
                self.saw(WALK_RUNNING, buffers > 0 && trio.state.running);
                self.saw(EXACT_ARRAY, buffers > 0 && room == 3 * buffers);
                self.saw(LONG_ARRAY, buffers > 0 && room > 3 * buffers);
                // All descriptors are walked, and they do not lie in one mapping.
                let table = DeviceRange::new(DeviceAddress(queue.descriptors), 16 * queue.size);
                let in_one = |m: &Mapping| m.holds(table.first) && m.holds(table.end - 1);
                let apart = !trio.state.mappings().iter().any(in_one);
                self.saw(SEVERAL_TABLES, longest == queue.size && apart);
            }
            Answer::Refused { code: 9, place } => {
                self.saw(READ_PAST, place < u64::MAX);
                self.saw(READ_CAPPED, place == u64::MAX);
            }
            Answer::Refused { code: 16, place } => self.unwritten(queue, last, place, trio),
            Answer::Refused { code: 27, .. } => {
                let needed: u64 = (0..distance.unwrap_or(0))
                    .filter_map(chain)
                    .map(|(_, chain)| 3 * chain.len() as u64)
                    .sum();
                self.saw(SHORT_ARRAY, room + 1 == needed);
            }
            Answer::Refused { code: 29, .. } => {
                self.saw(ONE_TOO_FAR, distance == Some(queue.size + 1));
                self.saw(ONE_BEHIND, distance == Some(0xffff));
            }
            Answer::Refused { code, place } => {
                if let Some((head, chain)) = chain(place) {
                    self.chain_refused(queue, head, &chain, code);
                }
                let later = place > 0;
                self.saw(INDEX_LATER, code == 30 && later);
                self.saw(LONG_LATER, code == 31 && later);
                self.saw(INDIRECT_LATER, code == 32 && later);
            }
            _ => {}
        }
    }

    /// Of a walk that was refused with 30, 31 or 32 at a head and its chain.
    fn chain_refused(&mut self, queue: &Queue, head: u64, chain: &[(u64, u64)], code: u64) {
        self.saw(HEAD_OF_SIZE, code == 30 && head == queue.size);
        let Some(&(flags, next)) = chain.last() else {
            return;
        };
        let (ends, whole) = (flags & NEXT == 0, chain.len() as u64 == queue.size);
        self.saw(NEXT_OF_SIZE, code == 30 && next == queue.size);
        self.saw(LOOP, code == 31 && next < queue.size);
        self.saw(LONG_AND_BEYOND, code == 31 && next >= queue.size);
        let indirect = code == 32 && flags & INDIRECT != 0;
        self.saw(INDIRECT_END, indirect && ends);
        self.saw(INDIRECT_LONG, indirect && !ends && whole);
    }

    /// Of a walk that met a byte at a device address that nobody wrote.
    fn unwritten(&mut self, queue: &Queue, last: u16, place: u64, trio: &Trio) {
        let index = queue.driver + 2;
        self.saw(UNWRITTEN_INDEX, (index..index + 2).contains(&place));
        let heads = (0..queue.size).filter_map(|i| queue.head_address(u64::from(last) + i));
        let at_head = |at: u64| (at..at + 2).contains(&place);
        self.saw(UNWRITTEN_HEAD, heads.into_iter().any(at_head));
        let in_table = place.checked_sub(queue.descriptors);
        if let Some(offset) = in_table.filter(|offset| *offset < 16 * queue.size) {
            let flags = trio.shown_number(place - offset % 16 + 12, 2);
            let ends = flags.is_some_and(|flags| flags & (NEXT | INDIRECT) == 0);
            self.saw(UNWRITTEN_NEXT, offset % 16 >= 14 && ends);
        }
    }

    /// Of a look-up that looked at so many mappings of those held, and found the last of them.
    fn found_after(&mut self, probes: u64, held: usize) {
        self.saw(LOOK_UP_AMONG_ALL, held == 4096);
        self.saw(FOUND_AT_ONCE, held > 1 && probes == 1);
        self.saw(FOUND_LAST_OF_7, held == 64 && probes == 7);
        self.saw(FOUND_LAST_OF_13, held == 4096 && probes == 13);
    }

    /// Of a look-up that found a mapping with so many bytes left.
    fn found(&mut self, device: u64, left: u64, mappings: &[Mapping]) {
        let starts = |address| mappings.iter().any(|m| m.device.0 == address);
        let adjoined = starts(device + left);
        self.saw(LOOK_UP_WITHIN, left > 1 && !starts(device));
        self.saw(LOOK_UP_LAST, left == 1);
        self.saw(LOOK_UP_LAST_ADJOINED, left == 1 && adjoined);
        self.saw(LOOK_UP_LONG_ADJOINED, left > PAGE && adjoined);
    }

    /// Of a look-up that looked at so many of these mappings, and found none.
    fn not_found(&mut self, device: u64, probes: u64, mappings: &[Mapping]) {
        let held = mappings.len();
        if let Some(i) = HELD.iter().position(|count| *count == held) {
            self.saw(NOT_FOUND + i, true);
        }
        let below = mappings.iter().filter(|m| m.device.0 < device).count();
        self.saw(BELOW_ALL, held > 1 && below == 0);
        self.saw(BETWEEN, below > 0 && below < held);
        self.saw(ABOVE_ALL, held > 1 && below == held);
        self.saw(NOT_FOUND_AFTER_13, held == 4096 && probes == 13);
    }

    fn saw(&mut self, event: usize, happened: bool) {
        self.counts[event] += u64::from(happened);
    }

    pub fn table(&self) -> String {
        let mut table = String::new();
        for (event, count) in EVENTS.iter().zip(self.counts) {
            writeln!(table, "{event}: {count}").unwrap();
        }
        table
    }

    pub fn faults(&self) -> Vec<String> {
        let missing = EVENTS.iter().zip(self.counts).filter(|(_, n)| *n == 0);
        missing.map(|(event, _)| format!("no {event}")).collect()
    }
}
