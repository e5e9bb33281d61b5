//! What a state of the emulator and its records mean, in the second program's terms.

use glint_reference::bench::{self, DeviceAddress, Mapping, MemoryAddress};
use glint_reference::lines::{Line, Lines, INDICES};
use glint_reference::registers::Registers;
use glintbasket::raw::{self, SLOTS};
use glintbasket::State;

use crate::call::Kept;

pub fn mapping(m: &glintbasket::Mapping) -> Mapping {
    Mapping {
        memory: MemoryAddress(m.memory.0),
        device: DeviceAddress(m.device.0),
        size: m.size,
        rights: u64::from(m.rights.0),
    }
}

fn line(l: &raw::Line) -> Line {
    Line {
        number: l.number.into(),
        masked: l.masked,
        pending: l.pending,
        tally: l.tally.into(),
    }
}

/// The lines of each index, one index after the other.
fn lines(all: &[raw::Line]) -> Lines {
    let mut all = all.iter().map(line);
    INDICES.map(|(count, _)| all.by_ref().take(count as usize).collect())
}

/// How many bytes of a slot are its value; no card has more words than a register has room for.
pub fn value_size(words: u8, slot: usize) -> usize {
    let state = State {
        words,
        ..State::default()
    };
    state.value_size(slot).min(32)
}

/// Values of registers that are not set and bytes behind a value mean nothing. All records are taken
/// over, stale ones too.
pub fn meaning(kept: &Kept) -> bench::State {
    let state = &kept.state;
    let mut registers = Registers::new();
    for (slot, register) in state.registers.slots.iter().enumerate() {
        if register.is_set() {
            let (kind, selector, _) = SLOTS[slot];
            let value = register.bytes[..value_size(state.words, slot)].to_vec();
            registers.insert((kind, selector), value);
        }
    }
    bench::State {
        noted_length: state.memory_length,
        records: kept.records.iter().map(mapping).collect(),
        count: state.count as u64,
        running: state.is_running(),
        words: state.words.into(),
        iommu_type: state.iommu_type.into(),
        registers,
        lines: lines(&state.lines),
    }
}

/// Whether a state means this, but for its records; quicker than to make its meaning.
pub fn means(state: &State, other: &bench::State) -> bool {
    let registers = state.registers.slots.iter().filter(|r| r.is_set()).count();
    state.memory_length == other.noted_length
        && state.is_running() == other.running
        && u64::from(state.words) == other.words
        && u64::from(state.iommu_type) == other.iommu_type
        && state.count as u64 == other.count
        && state
            .lines
            .iter()
            .map(line)
            .eq(other.lines.iter().flatten().copied())
        && registers == other.registers.len()
        && state
            .registers
            .slots
            .iter()
            .enumerate()
            .filter(|(_, register)| register.is_set())
            .all(|(slot, register)| {
                let (kind, selector, _) = SLOTS[slot];
                other.registers.get(&(kind, selector)).map(Vec::as_slice)
                    == Some(&register.bytes[..value_size(state.words, slot)])
            })
}

/// The first place at which records differ from the second program's.
pub fn first_other(records: &[glintbasket::Mapping], others: &[Mapping]) -> Option<usize> {
    let shorter = records.len().min(others.len());
    let mut pairs = records.iter().zip(others);
    let place = pairs.position(|(one, other)| mapping(one) != *other);
    place.or((records.len() != others.len()).then_some(shorter))
}
