//! States that are not sound, each by one cause.

use std::fmt::Write;

use glintbasket::raw::LINES;
use glintbasket::{DeviceAddress, Mapping, MemoryAddress, Rights, RECORDS_LIMIT};

use crate::call::Kept;
use crate::random::Random;
use crate::streams;

const PAGE: u64 = 4096;
const TOP: u64 = 1 << 48;
const MEMORY_LIMIT: u64 = 1 << 30;

/// The causes: what rule 1.12 rules out.
#[rustfmt::skip]
pub const CAUSES: [&str; 24] = [
    "a count above the records",
    "mappings out of order",
    "mappings that overlap",
    "one mapping twice",
    "device address not aligned",
    "memory address not aligned",
    "size not aligned",
    "size 0",
    "rights 0",
    "rights above 3",
    "ends past 2^48",
    "device end wraps",
    "ends past the noted length",
    "memory end wraps",
    "noted length above 2^30",
    "status not set",
    "driver features not offered",
    "queue value",
    "enabled queue of size 0",
    "no such card",
    "notify value",
    "more than 4,096 records",
    "no such IOMMU type",
    "event number below -1",
];

/// Numbers that are no IOMMU type; in those with a high byte, the low one is.
pub const NO_TYPES: [u32; 10] = [
    0,
    2,
    4,
    0x101,
    0x103,
    0x1_0003,
    0x0100_0001,
    0x0300_0003,
    0x0300_0000,
    u32::MAX,
];

/// Event numbers that no line may have; the low bytes of some would do.
pub const LOW_NUMBERS: [i32; 5] = [-2, -3, -0x100, -0x7fff_fffb, i32::MIN];

#[derive(Default)]
pub struct Damages {
    counts: [u64; CAUSES.len()],
}

impl Damages {
    pub fn count(&mut self, cause: usize) {
        self.counts[cause] += 1;
    }

    pub fn add(&mut self, other: &Damages) {
        for (count, more) in self.counts.iter_mut().zip(other.counts) {
            *count += more;
        }
    }

    pub fn table(&self) -> String {
        let mut table = String::new();
        for (cause, count) in CAUSES.iter().zip(self.counts) {
            writeln!(table, "not sound: {cause}: {count}").unwrap();
        }
        table
    }

    pub fn faults(&self) -> Vec<String> {
        let missing = CAUSES
            .iter()
            .zip(self.counts)
            .filter(|(_, count)| *count == 0);
        missing
            .map(|(cause, _)| format!("no state was unsound by: {cause}"))
            .collect()
    }
}

/// The state with one thing wrong, and the index of the cause. Where that needs mappings, it has
/// two at least.
pub fn damaged(sound: &Kept, random: &mut Random) -> (usize, Kept) {
    let mut kept = sound.clone();
    let Kept { state, records } = &mut kept;
    let cause = random.below(CAUSES.len() as u64) as usize;
    if cause < 14 && state.count < 2 {
        state.count = 2;
        records.resize(records.len().max(2), Mapping::default());
        for (i, m) in records[..2].iter_mut().enumerate() {
            *m = Mapping {
                device: DeviceAddress((i as u64 + 1) * PAGE),
                memory: MemoryAddress(0),
                size: PAGE,
                rights: Rights(3),
            };
        }
    }
    // Of the mappings: the last, any, and one that is not the last.
    let last = state.count.max(2) - 1;
    let i = random.below(last as u64 + 1) as usize;
    let j = random.below(last as u64) as usize;
    match CAUSES[cause] {
        "a count above the records" => {
            state.count = match random.below(4) {
                0 => random.pick(&[RECORDS_LIMIT, RECORDS_LIMIT + 1, 1 << 32, usize::MAX]),
                more => records.len() + more as usize,
            }
            .max(records.len() + 1);
        }
        "mappings out of order" => records.swap(j, j + 1),
        "mappings that overlap" => {
            let next = records[j + 1].device.0;
            records[j].size = next - records[j].device.0 + PAGE;
        }
        "one mapping twice" => records[j + 1] = records[j],
        "device address not aligned" => records[i].device.0 ^= 1 << random.below(12),
        "memory address not aligned" => records[i].memory.0 ^= 1 << random.below(12),
        "size not aligned" => records[i].size ^= 1 << random.below(12),
        "size 0" => records[i].size = 0,
        "rights 0" => records[i].rights.0 = 0,
        "rights above 3" => {
            records[i].rights.0 = random.pick(&[4, 5, 7, 0x103, 0x8000_0001, u32::MAX])
        }
        "ends past 2^48" => {
            let m = &mut records[last];
            m.device.0 = TOP - m.size + PAGE;
        }
        "device end wraps" => {
            let m = &mut records[last];
            m.device.0 = 0u64.wrapping_sub(m.size);
        }
        "ends past the noted length" => {
            let m = &mut records[i];
            m.memory.0 = (state.memory_length / PAGE * PAGE + PAGE).saturating_sub(m.size);
        }
        "memory end wraps" => {
            let m = &mut records[i];
            m.memory.0 = 0u64.wrapping_sub(m.size);
        }
        "noted length above 2^30" => {
            state.memory_length = random.pick(&[MEMORY_LIMIT + 1, MEMORY_LIMIT + PAGE, u64::MAX]);
        }
        "status not set" => state.registers.slots[5].set = random.pick(&[0, 2, 3, 129, 255]),
        "driver features not offered" => {
            let register = &mut state.registers.slots[0];
            register.set = 1;
            let features = random.number() | 1 << random.pick(&[0, 27, 30, 31, 33, 63]);
            register.bytes[..8].copy_from_slice(&features.to_le_bytes());
        }
        "queue value" => {
            let slot = 6 + random.below(4) as usize;
            let register = &mut state.registers.slots[slot];
            register.set = 1;
            let mut value = streams::good_value(0x104, 32, random);
            // Of the ways to spoil it, those that leave it good are left out.
            match random.below(6) {
                0 => {
                    value[..2].copy_from_slice(&random.pick(&[0u16, 3, 512, 257]).to_le_bytes());
                    value[4] = 1; // size 0 is good where the queue is not enabled
                }
                1 => value[4..6].copy_from_slice(&random.pick(&[2u16, 256]).to_le_bytes()),
                2 => value[6 + random.below(2) as usize] = random.pick(&[1, 128]),
                3 => value[8] |= random.pick(&[1, 2, 4, 8]),
                4 => value[16] |= 1,
                _ => value[24] |= random.pick(&[1, 2]),
            }
            register.bytes.copy_from_slice(&value);
        }
        "no such card" => state.words = random.pick(&[0, 3, 4, 128, 255]),
        "enabled queue of size 0" => {
            let slot = 6 + random.below(4) as usize;
            let register = &mut state.registers.slots[slot];
            register.set = 1;
            let mut value = streams::good_value(0x104, 32, random);
            value[..2].fill(0);
            value[4] = 1;
            register.bytes.copy_from_slice(&value);
        }
        "notify value" => {
            let slot = 10 + random.below(4) as usize;
            let register = &mut state.registers.slots[slot];
            register.set = 1;
            register.bytes[4 + random.below(4) as usize] = random.pick(&[1, 128]);
        }
        // The records behind are stale.
        "more than 4,096 records" => {
            let length = RECORDS_LIMIT + random.pick(&[1, 1, 2, 64]);
            records.resize(length, Mapping::default());
        }
        "no such IOMMU type" => state.iommu_type = random.pick(&NO_TYPES),
        "event number below -1" => {
            let line = random.below(LINES as u64) as usize;
            state.lines[line].number = random.pick(&LOW_NUMBERS);
        }
        _ => unreachable!(),
    }
    (cause, kept)
}
