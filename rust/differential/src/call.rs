//! The calls and steps of a list, as data that can be made again.

use std::fmt;

use glintbasket::{Card, Mapping, State};

use crate::interrupts::Fields;

/// A state, and the records that are lent beside it.
#[derive(Clone, Debug, PartialEq, Eq)]
pub struct Kept {
    pub state: State,
    pub records: Vec<Mapping>,
}

impl Kept {
    /// The records in use, as far as there are so many.
    pub fn mappings(&self) -> &[Mapping] {
        &self.records[..self.state.count.min(self.records.len())]
    }

    /// The records past the count.
    pub fn stale_mut(&mut self) -> &mut [Mapping] {
        let used = self.mappings().len();
        &mut self.records[used..]
    }
}

/// How much is lent: how many records, and how many bytes of memory and of marks.
#[derive(Clone, Copy, Debug, PartialEq, Eq)]
pub struct Lent {
    pub records: usize,
    pub memory: usize,
    pub marks: usize,
}

/// A call but for its buffer, which for a walk of a queue is its array, eight bytes to a number.
#[derive(Clone, Copy, Debug, PartialEq, Eq)]
pub enum Call {
    FreshStart { card: Card },
    Request { target: u32, number: u32 },
    LookUp { device: u64 },
    ShowLine { index: u32, line: u32 },
    WalkQueue { queue: u32, last: u16 },
    CardRead { device: u64 },
    CardWrite { device: u64 },
    HostStore { address: u64 },
    HostLoad { address: u64 },
    Forget { address: u64, length: u64 },
    SetRegister { kind: u64, selector: u64 },
    ReadRegister { kind: u64, selector: u64 },
    LoadParts,
    SaveParts,
    Stop,
    Start,
    Walk { place: u64 },
}

#[derive(Clone, Copy, Debug, PartialEq, Eq)]
pub enum Answer {
    Done(u64),
    Found {
        address: u64,
        rights: u64,
        left: u64,
        probes: u64,
    },
    Line {
        number: i64,
        masked: bool,
        pending: bool,
        tally: u64,
    },
    Walked {
        buffers: u64,
        index: u64,
    },
    Part {
        kind: u64,
        flags: u64,
        selector: u64,
        next: u64,
    },
    End,
    Refused {
        code: u64,
        place: u64,
    },
    /// A look-up refused with 14, the one refusal that tells how many places were looked at.
    NotFound {
        place: u64,
        probes: u64,
    },
}

impl Answer {
    /// The number of a refusal.
    pub fn refusal(&self) -> Option<u64> {
        match *self {
            Answer::Refused { code, .. } => Some(code),
            Answer::NotFound { .. } => Some(14),
            _ => None,
        }
    }
}

/// One step of a list.
#[derive(Clone)]
pub enum Step {
    Make(Box<Made>),
    /// Others write unwritten memory: each program its own bytes, by this seed.
    Scribble {
        from: usize,
        length: usize,
        seed: u64,
    },
    /// The bits of the marks past the noted length become others, by this seed.
    PastEnd {
        seed: u64,
    },
    /// Others write stale records: each program its own, by this seed.
    Stale {
        seed: u64,
    },
    /// The records become another slice, of this length, that begins with those in use; the others
    /// are made by this seed.
    Exchange {
        length: usize,
        seed: u64,
    },
    /// The kept state and the records become these.
    Install(Box<Kept>),
}

/// A call with all that it is given.
#[derive(Clone)]
pub struct Made {
    pub call: Call,
    pub buffer: Vec<u8>,
    pub lent: Lent,
    /// A state and records, all of them lent, to give in place of the kept ones. What the call makes
    /// of them is kept only if a fresh start is accepted.
    pub given: Option<Kept>,
}

impl Made {
    /// How many records are lent.
    pub fn records(&self) -> usize {
        match &self.given {
            Some(kept) => kept.records.len(),
            None => self.lent.records,
        }
    }
}

impl Call {
    /// Whether the byte at this offset of the call's buffer is stale (rule 3.7): no input field, datum,
    /// byte to store, value to set or stream.
    pub fn is_stale(&self, buffer: &[u8], offset: usize) -> bool {
        let input = match *self {
            Call::Request { target, number } => match (target, number) {
                (0, 101) | (0, 102) | (0, 112) | (1, 107) => offset < 4,
                (0, 113) => offset < 32,
                (0, 114) => offset < 24,
                (1, 108) | (1, 109) => offset < 4 || (8..12).contains(&offset),
                (1, 110) => (offset as u64) < 20 + data_length(buffer),
                _ => false,
            },
            Call::CardWrite { .. }
            | Call::HostStore { .. }
            | Call::SetRegister { .. }
            | Call::LoadParts
            | Call::Walk { .. } => true,
            _ => false,
        };
        !input
    }

    fn takes_memory(&self) -> bool {
        !matches!(
            self,
            Call::LookUp { .. }
                | Call::ShowLine { .. }
                | Call::SetRegister { .. }
                | Call::ReadRegister { .. }
                | Call::LoadParts
                | Call::SaveParts
                | Call::Stop
                | Call::Start
                | Call::Walk { .. }
        )
    }
}

/// How many bytes behind the fields of request 110 are data (rule 3.27).
fn data_length(buffer: &[u8]) -> u64 {
    if buffer.len() < 20 {
        return 0;
    }
    let fields = Fields::read(buffer);
    fields.count * fields.width()
}

impl fmt::Display for Step {
    fn fmt(&self, f: &mut fmt::Formatter) -> fmt::Result {
        match self {
            Step::Make(made) => {
                write!(f, "{:x?}", made.call)?;
                if !made.buffer.is_empty() {
                    let length = made.buffer.len();
                    write!(f, "; {length} bytes: {}", Hex(&made.buffer))?;
                }
                if made.call.takes_memory() {
                    write!(f, "; lent {} and {}", made.lent.memory, made.lent.marks)?;
                }
                match &made.given {
                    Some(kept) => write!(f, "; on {}", Shown(kept))?,
                    None => write!(f, "; {} records", made.lent.records)?,
                }
                Ok(())
            }
            Step::Scribble { from, length, seed } => {
                write!(f, "others write {length} bytes at {from} by {seed:#x}")
            }
            Step::PastEnd { seed } => {
                write!(f, "the bits past the end become others by {seed:#x}")
            }
            Step::Stale { seed } => write!(f, "others write stale records by {seed:#x}"),
            Step::Exchange { length, seed } => {
                write!(f, "the records become {length} others by {seed:#x}")
            }
            Step::Install(kept) => write!(f, "the state becomes {}", Shown(kept)),
        }
    }
}

/// Bytes, cut where they go on alike or for long.
struct Hex<'a>(&'a [u8]);

impl fmt::Display for Hex<'_> {
    fn fmt(&self, f: &mut fmt::Formatter) -> fmt::Result {
        for byte in self.0.iter().take(96) {
            write!(f, "{byte:02x}")?;
        }
        if self.0.len() > 96 {
            write!(f, "..")?;
        }
        Ok(())
    }
}

/// What a state means, in one line.
struct Shown<'a>(&'a Kept);

impl fmt::Display for Shown<'_> {
    fn fmt(&self, f: &mut fmt::Formatter) -> fmt::Result {
        let (state, mappings) = (&self.0.state, self.0.mappings());
        let (count, length) = (state.count, self.0.records.len());
        write!(
            f,
            "[length {:#x}, type {:#x}, {count} mappings in {length} records",
            state.memory_length, state.iommu_type
        )?;
        for m in mappings.iter().take(66) {
            let (device, memory) = (m.device.0, m.memory.0);
            write!(f, " {device:x}->{memory:x}+{:x}/{}", m.size, m.rights.0)?;
        }
        if mappings.len() > 66 {
            write!(f, " ..")?;
        }
        write!(f, ", registers")?;
        for (slot, register) in state.registers.slots.iter().enumerate() {
            if register.is_set() {
                write!(f, " {slot}:{}", Hex(&register.bytes))?;
            }
        }
        write!(f, ", lines")?;
        for (place, line) in state.lines.iter().enumerate() {
            if (line.number, line.tally, line.masked, line.pending) != (-1, 0, 0, 0) {
                let (number, tally) = (line.number, line.tally);
                write!(
                    f,
                    " {place}:{number}/{}/{}/{tally}",
                    line.masked, line.pending
                )?;
            }
        }
        write!(f, ", running {}]", state.running)
    }
}

#[cfg(test)]
mod tests {
    use crate::interrupts::{BOOL, EVENT, NONE, SET_IRQS, TRIGGER};

    /// Rule 3.27: as many data as are read, whatever argsz says, and none where there are no data.
    #[test]
    fn data_behind_those_that_are_read_are_stale() {
        let input = |flags: u64, count: u32, length| {
            let fields = [20, flags as u32, 2, 0, count];
            let mut buffer: Vec<u8> = fields.into_iter().flat_map(u32::to_le_bytes).collect();
            buffer.resize(length, 0);
            let stale = |i: &usize| SET_IRQS.is_stale(&buffer, *i);
            (0..length).take_while(|i| !stale(i)).count()
        };
        assert_eq!(input(NONE | TRIGGER, 3, 40), 20);
        assert_eq!(input(BOOL | TRIGGER, 3, 40), 23);
        assert_eq!(input(EVENT | TRIGGER, 3, 40), 32);
        assert_eq!(input(EVENT | TRIGGER, u32::MAX, 40), 40);
        assert_eq!(input(BOOL | EVENT, 3, 40), 20);
        assert_eq!(input(EVENT | TRIGGER, 0, 40), 20);
        assert_eq!(
            [0, 19].map(|offset| SET_IRQS.is_stale(&[0; 19], offset)),
            [false, false]
        );
    }
}
