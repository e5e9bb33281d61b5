//! Kept lines of any values, and calls on them at the edges of each rule.

use glint_reference::bytes::number_at;
use glint_reference::lines::INDICES;
use glintbasket::raw::{Line, LINES};

use crate::call::Call;
use crate::damage::LOW_NUMBERS;
use crate::generate::put;
use crate::random::Random;

pub const SET_IRQS: Call = Call::Request {
    target: 1,
    number: 110,
};

pub const NONE: u64 = 1;
pub const BOOL: u64 = 2;
pub const EVENT: u64 = 4;
pub const MASK: u64 = 8;
pub const UNMASK: u64 = 16;
pub const TRIGGER: u64 = 32;

/// Bytes of a flag: yes, and several that say no.
const FLAG_BYTES: [u8; 6] = [0, 0, 1, 1, 2, 255];

/// A number that a line may have.
fn good_number(random: &mut Random) -> i32 {
    let any = (random.number() >> 33) as i32;
    random.pick(&[-1, -1, 0, 5, i32::MAX, any])
}

/// Lines that are sound: as a reset leaves them, or of any values but numbers below -1.
pub fn sound_lines(random: &mut Random) -> [Line; LINES] {
    let mut lines = [Line::default(); LINES];
    let disabled = random.one_in(4);
    for line in &mut lines {
        line.number = -1;
        if !disabled {
            let any = random.number() as u32;
            *line = Line {
                number: good_number(random),
                tally: random.pick(&[0, 1, u32::MAX, any]),
                masked: random.pick(&FLAG_BYTES),
                pending: random.pick(&FLAG_BYTES),
            };
        }
    }
    lines
}

/// The fields of request 110 behind argsz; its flags are kind and action.
#[derive(Clone, Copy)]
pub struct Fields {
    pub kind: u64,
    pub action: u64,
    pub index: u64,
    pub start: u64,
    pub count: u64,
}

/// The event number for the line at an offset of the range, where the buffer has it.
pub fn event_at(buffer: &[u8], offset: usize) -> Option<i32> {
    let from = 20 + 4 * offset;
    let bytes = buffer.get(from..from + 4)?;
    Some(i32::from_le_bytes(bytes.try_into().expect("four bytes")))
}

impl Fields {
    /// Those of a buffer, which has 20 bytes at least.
    pub fn read(buffer: &[u8]) -> Fields {
        let flags = number_at(buffer, 4, 4);
        Fields {
            kind: flags % 8,
            action: flags - flags % 8,
            index: number_at(buffer, 8, 4),
            start: number_at(buffer, 12, 4),
            count: number_at(buffer, 16, 4),
        }
    }

    pub fn is_one_kind_and_action(&self) -> bool {
        let kinds = [NONE, BOOL, EVENT];
        let actions = [MASK, UNMASK, TRIGGER];
        kinds.contains(&self.kind) && actions.contains(&self.action)
    }

    pub fn disables(&self) -> bool {
        (self.kind, self.action, self.count) == (NONE, TRIGGER, 0)
    }

    /// Fields that are accepted; index 3 has no lines, and only disabling it is.
    fn good(random: &mut Random) -> Fields {
        let index = random.pick(&[0, 0, 0, 0, 1, 1, 2, 2, 3]);
        let (lines, _) = INDICES[index as usize];
        if index == 3 || random.one_in(12) {
            return Fields {
                kind: NONE,
                action: TRIGGER,
                index,
                start: random.below(lines + 1),
                count: 0,
            };
        }
        let kind = random.pick(&[NONE, NONE, BOOL, BOOL, EVENT]);
        let action = match kind {
            EVENT => TRIGGER,
            _ if index == 0 => random.pick(&[MASK, UNMASK, UNMASK, TRIGGER, TRIGGER]),
            _ => TRIGGER,
        };
        let start = random.below(lines);
        Fields {
            kind,
            action,
            index,
            start,
            count: random.from(1, lines - start),
        }
    }

    /// One thing becomes wrong, or another edge.
    fn spoil(&mut self, random: &mut Random) {
        let lines = INDICES
            .get(self.index as usize)
            .map_or(1, |(lines, _)| *lines);
        match random.below(10) {
            0 => self.kind = random.pick(&[0, 3, 5, 6, 7]),
            1 => self.action = random.pick(&[0, 24, 40, 48, 56, 64, 96, 0x120, 0x8000_0020]),
            2 => (self.kind, self.action) = (EVENT, random.pick(&[MASK, UNMASK])),
            3 => self.index = random.pick(&[4, 5, 0x100, 0x1_0000, 0xffff_ffff]),
            4 => self.action = random.pick(&[MASK, UNMASK]),
            5 => self.start = random.pick(&[lines, lines + 1, 0x8000_0000, 0xffff_ffff]),
            6 => self.count = random.pick(&[0, lines, lines + 1, 0x8000_0000, 0xffff_ffff]),
            7 => (self.start, self.count) = (random.pick(&[lines, lines + 1]), 0),
            8 => self.count = lines - self.start.min(lines) + 1,
            // A sum that would be inside the index in 32 bits.
            _ => {
                self.start = 0xffff_ffff - random.below(3);
                self.count = (1 << 32) - self.start + random.below(lines + 1);
            }
        }
    }

    /// Bytes of data for each line.
    pub fn width(&self) -> u64 {
        match self.kind {
            BOOL => 1,
            EVENT => 4,
            _ => 0,
        }
    }

    /// Data for all lines, as far as there are lines, and sometimes more.
    fn data(&self, random: &mut Random) -> Vec<u8> {
        let more = random.pick(&[0, 0, 0, 1, 4, 5, 16]);
        let length = (self.count.min(32) * self.width() + more) as usize;
        match self.kind {
            EVENT => {
                let low = random.one_in(4);
                let numbers = (0..length.div_ceil(4)).flat_map(|_| {
                    let number = match low && random.one_in(3) {
                        true => random.pick(&LOW_NUMBERS),
                        false => good_number(random),
                    };
                    number.to_le_bytes()
                });
                numbers.take(length).collect()
            }
            BOOL => (0..length)
                .map(|_| random.pick(&[0, 0, 1, 1, 2, 128, 255]))
                .collect(),
            _ => random.bytes(length),
        }
    }
}

/// Request 110: mostly one thing is wrong or nothing; sometimes several are, and the order decides.
pub fn set_irqs(random: &mut Random) -> (Call, Vec<u8>) {
    let mut fields = Fields::good(random);
    for _ in 0..random.pick(&[0, 0, 0, 0, 0, 1, 1, 2, 3]) {
        fields.spoil(random);
    }
    let mut buffer = vec![0; 20];
    buffer.extend(fields.data(random));
    if random.one_in(20) {
        buffer.truncate(random.pick(&[0, 3, 4, 16, 19, 20, 21]));
    }
    let length = buffer.len() as u64;
    let needed = 20 + fields.count * fields.width();
    let argsz = match random.below(12) {
        0 => random.pick(&[0, 19, length + 1, 1 << 31, 0xffff_ffff]),
        1 => needed.saturating_sub(random.pick(&[1, 4])),
        2 => 20,
        3..=6 => length,
        _ => needed,
    };
    put(&mut buffer, 0, 4, argsz);
    put(&mut buffer, 4, 4, fields.kind | fields.action);
    put(&mut buffer, 8, 4, fields.index);
    put(&mut buffer, 12, 4, fields.start);
    put(&mut buffer, 16, 4, fields.count);
    (SET_IRQS, buffer)
}

/// A line that there is, or one beside it.
pub fn show_line(random: &mut Random) -> Call {
    let index = random.pick(&[0, 0, 1, 1, 2, 2, 3, 4, 0x100, u32::MAX]);
    let lines = INDICES.get(index as usize).map_or(0, |(lines, _)| *lines);
    let line = match random.below(8) {
        0 => random.pick(&[lines, lines + 1, 0x100, 0xffff_ffff]),
        _ => random.below(lines.max(1)),
    };
    Call::ShowLine {
        index,
        line: line as u32,
    }
}
