//! The emulator, a twin of it with other garbage, and the second program, led through a list.

use std::panic::{catch_unwind, AssertUnwindSafe};

use glint_reference::bench::{self, is_written, mark, mark_bytes};
use glintbasket::{Mapping, State};

use crate::account::Account;
use crate::call::{Answer, Call, Kept, Lent, Made, Step};
use crate::meaning::{first_other, mapping, meaning, means, value_size};
use crate::programs::{emulate, refer};
use crate::random::Random;

/// A call on the emulator, with what it was given.
pub struct Given<'a> {
    pub call: &'a Call,
    pub kept: &'a Kept,
    pub buffer: &'a [u8],
}

/// What the call left.
pub struct Left<'a> {
    pub kept: &'a mut Kept,
    pub buffer: &'a mut [u8],
}

/// Changes what the emulator answers and leaves: for tests of this program.
pub type Tamper = fn(&Given, Answer, &mut Left) -> Answer;

pub fn faithful(_: &Given, answer: Answer, _: &mut Left) -> Answer {
    answer
}

/// How much there is to lend, at first.
#[derive(Clone, Copy, Debug)]
pub struct Size {
    pub records: usize,
    pub memory: usize,
}

struct Side {
    kept: Kept,
    memory: Vec<u8>,
    marks: Vec<u8>,
}

pub struct Trio {
    emulator: Side,
    twin: Side,
    /// The second program's state with its records, memory and marks. It starts with the emulator's
    /// bytes and records.
    pub state: bench::State,
    memory: Vec<u8>,
    marks: Vec<u8>,
    /// The emulator's mapped bytes by its calls, from an accepted fresh start on.
    account: Option<Account>,
    /// Whether the records are others than at the last call.
    pub exchanged: bool,
    /// What the twin's stale bytes differ by.
    other: u8,
    tamper: Tamper,
}

/// Why a step was wrong.
pub type Fault = String;

impl Trio {
    /// Garbage in states, records, memory and marks: a fresh start comes first.
    pub fn new(size: Size, seed: u64, tamper: Tamper) -> Trio {
        let mut random = Random::new(seed);
        let mut kept = Kept {
            state: State::default(),
            records: vec![Mapping::default(); size.records],
        };
        garble(&mut kept, &mut random);
        let memory = random.bytes(size.memory);
        let marks = random.bytes(mark_bytes(size.memory));
        let mut twin_kept = kept.clone();
        garble(&mut twin_kept, &mut random);
        Trio {
            state: meaning(&kept),
            memory: memory.clone(),
            marks: marks.clone(),
            twin: Side {
                kept: twin_kept,
                memory: twin_memory(&memory, &marks, &mut random),
                marks: marks.clone(),
            },
            emulator: Side {
                kept,
                memory,
                marks,
            },
            account: None,
            exchanged: false,
            other: random.from(1, 255) as u8,
            tamper,
        }
    }

    /// How many bytes there are to lend.
    pub fn capacity(&self) -> usize {
        self.memory.len()
    }

    /// How many records there are to lend.
    pub fn records(&self) -> usize {
        self.state.records.len()
    }

    /// What stands in the last mark byte past the noted length.
    pub fn bits_past_end(&self) -> Vec<bool> {
        let noted = self.state.noted_length as usize;
        let end = 8 * mark_bytes(noted).min(self.marks.len());
        (noted..end).map(|i| is_written(&self.marks, i)).collect()
    }

    /// The number in bytes that device addresses show, if all of them are written.
    pub fn shown_number(&self, device: u64, width: u64) -> Option<u64> {
        (0..width).rev().try_fold(0, |number, i| {
            let address = u128::from(device) + u128::from(i);
            let mapping = self.state.mappings().iter().find(|m| m.holds(address))?;
            let place = (mapping.memory.whole() + address - mapping.device.whole()) as usize;
            let written = is_written(&self.marks, place);
            written.then(|| number << 8 | u64::from(self.memory[place]))
        })
    }

    pub fn kept(&self) -> &Kept {
        &self.emulator.kept
    }

    /// The state and the records that a call is given.
    pub fn given<'a>(&'a self, made: &'a Made) -> &'a Kept {
        made.given.as_ref().unwrap_or(self.kept())
    }

    /// One step on all three. The answer, if it is a call, or the first difference. A program that
    /// panics is one, too, so that its list is shown.
    pub fn step(&mut self, step: &Step) -> Result<Option<Answer>, Fault> {
        catch_unwind(AssertUnwindSafe(|| self.take(step)))
            .unwrap_or_else(|_| Err("a panic, whose message was printed".to_string()))
    }

    fn take(&mut self, step: &Step) -> Result<Option<Answer>, Fault> {
        match step {
            Step::Make(made) => self.make(made).map(Some),
            Step::Scribble { from, length, seed } => {
                self.scribble(*from, *length, *seed);
                Ok(None)
            }
            Step::PastEnd { seed } => {
                let noted = (self.state.noted_length as usize).min(self.memory.len());
                let others = Random::new(*seed).bytes(self.marks.len());
                for i in noted..self.memory.len() {
                    let written = is_written(&others, i);
                    mark(&mut self.marks, i, written);
                    mark(&mut self.emulator.marks, i, written);
                    mark(&mut self.twin.marks, i, written);
                    // A longer memory would have this byte, and the twin then the same.
                    if written {
                        self.twin.memory[i] = self.memory[i];
                    }
                }
                Ok(None)
            }
            Step::Stale { seed } => {
                self.noise(*seed);
                Ok(None)
            }
            Step::Exchange { length, seed } => {
                if *length < self.state.mappings().len() {
                    self.account = None;
                }
                self.state
                    .records
                    .resize(*length, bench::Mapping::filled(0));
                for side in [&mut self.emulator, &mut self.twin] {
                    side.kept.records.resize(*length, Mapping::default());
                }
                self.noise(*seed);
                self.exchanged = true;
                Ok(None)
            }
            Step::Install(kept) => {
                self.account = None;
                self.state = meaning(kept);
                self.emulator.kept = (**kept).clone();
                self.twin.kept = (**kept).clone();
                garble(&mut self.twin.kept, &mut Random::new(1));
                Ok(None)
            }
        }
    }

    /// Stale records become others, and the twin's others again.
    fn noise(&mut self, seed: u64) {
        let mut random = Random::new(seed);
        let stale = self.emulator.kept.stale_mut();
        stale.iter_mut().for_each(|m| *m = noise(&mut random));
        let used = self.emulator.kept.mappings().len();
        for (other, m) in self.state.records[used..]
            .iter_mut()
            .zip(stale_of(&self.emulator))
        {
            *other = mapping(m);
        }
        let stale = self.twin.kept.stale_mut();
        stale.iter_mut().for_each(|m| *m = noise(&mut random));
    }

    fn scribble(&mut self, from: usize, length: usize, seed: u64) {
        let mut random = Random::new(seed);
        let end = (from + length).min(self.memory.len());
        for i in from..end {
            if !is_written(&self.marks, i) {
                let byte = random.byte();
                self.memory[i] = byte;
                self.emulator.memory[i] = byte;
                self.twin.memory[i] = random.byte();
            }
        }
    }

    fn make(&mut self, made: &Made) -> Result<Answer, Fault> {
        self.exchanged = false;
        let call = &made.call;
        let mut given = made.given.clone();
        let mut twin_given = made.given.clone();
        if let Some(kept) = &mut twin_given {
            garble(kept, &mut Random::new(u64::from(self.other)));
        }
        let mut other_state = made.given.as_ref().map(meaning);
        let state = other_state.as_mut().unwrap_or(&mut self.state);

        let mut expected_buffer = made.buffer.clone();
        let expected = refer(
            call,
            state,
            made.records(),
            &mut self.memory[..made.lent.memory],
            &mut self.marks[..made.lent.marks],
            &mut expected_buffer,
        );

        let before = given.as_ref().unwrap_or(&self.emulator.kept).clone();
        let mut buffer = made.buffer.clone();
        let answer = self.emulator.make(made, given.as_mut(), &mut buffer);
        let found = Given {
            call,
            kept: &before,
            buffer: &made.buffer,
        };
        let mut left = Left {
            kept: given.as_mut().unwrap_or(&mut self.emulator.kept),
            buffer: &mut buffer,
        };
        let answer = (self.tamper)(&found, answer, &mut left);
        check(answer == expected, || {
            format!("the emulator answers {answer:x?}, the second program {expected:x?}")
        })?;
        check(buffer == expected_buffer, || {
            differs("the buffer", &buffer, &expected_buffer)
        })?;
        check(self.emulator.memory == self.memory, || {
            differs("memory", &self.emulator.memory, &self.memory)
        })?;
        check(self.emulator.marks == self.marks, || {
            differs("marks", &self.emulator.marks, &self.marks)
        })?;
        let left = given.as_ref().unwrap_or(&self.emulator.kept);
        check(means(&left.state, state), || {
            format!(
                "the states differ: the emulator's {:x?}, the second program's {state:x?}",
                meaning(left)
            )
        })?;
        same_records("record", &left.records, &state.records)?;
        let refused = answer.refusal().is_some();
        check(!refused || *left == before, || {
            "a refused call changed the struct of the state, or a record".to_string()
        })?;
        check(!refused || buffer == made.buffer, || {
            "a refused call wrote to its buffer".to_string()
        })?;

        let stale = self.other;
        let twin_memory_before = self.twin.memory.clone();
        let twin_before = twin_given.as_ref().unwrap_or(&self.twin.kept).clone();
        let mut twin_buffer = made.buffer.clone();
        for (i, byte) in twin_buffer.iter_mut().enumerate() {
            if call.is_stale(&made.buffer, i) {
                *byte ^= stale;
            }
        }
        let twin_stale = twin_buffer.clone();
        // The twin's bits past the end are others, for this one call.
        self.twin.flip_past_end(made.lent);
        let twin_answer = self.twin.make(made, twin_given.as_mut(), &mut twin_buffer);
        self.twin.flip_past_end(made.lent);
        let twin_left = twin_given.as_ref().unwrap_or(&self.twin.kept);
        check(twin_answer == expected, || {
            format!("other garbage: the emulator answers {twin_answer:x?}, not {expected:x?}")
        })?;
        check(means(&twin_left.state, state), || {
            "other garbage: the states differ".to_string()
        })?;
        same_records(
            "other garbage: record",
            twin_left.mappings(),
            state.mappings(),
        )?;
        let used = twin_left.mappings().len();
        check(
            twin_left.records[used..] == twin_before.records[used..],
            || "other garbage: a record past the count changed".to_string(),
        )?;
        check(!refused || *twin_left == twin_before, || {
            "other garbage: a refused call changed the struct of the state, or a record".to_string()
        })?;
        check(self.twin.marks == self.marks, || {
            differs("other garbage: marks", &self.twin.marks, &self.marks)
        })?;
        check(self.same_written(&twin_memory_before), || {
            "other garbage: written memory differs, or unwritten memory changed".to_string()
        })?;
        // Each byte of a buffer was written alike, or in neither.
        let alike = (0..buffer.len()).all(|i| {
            buffer[i] == twin_buffer[i]
                || (buffer[i] == made.buffer[i] && twin_buffer[i] == twin_stale[i])
        });
        check(alike, || {
            differs("other garbage: the buffer", &twin_buffer, &buffer)
        })?;

        let started = matches!(call, Call::FreshStart { .. }) && !refused;
        if started {
            self.account = Some(Account::default());
        } else if made.given.is_none() && !refused {
            if let Some(account) = &mut self.account {
                account.enter(call, &made.buffer, &buffer);
            }
        }
        if let (Some(state), Some(kept), Some(twin), true) =
            (other_state, given, twin_given, started)
        {
            self.state = state;
            self.emulator.kept = kept;
            self.twin.kept = twin;
        }
        let held = self.emulator.kept.mappings();
        check(self.account.is_none_or(|a| a.balances(held)), || {
            format!("{:?} is not what is held: {held:x?}", self.account)
        })?;
        Ok(answer)
    }

    /// Where a byte is written the twin's memory has the same one; elsewhere its own stays. A mark
    /// byte mostly says the same of all its eight bytes.
    fn same_written(&self, before: &[u8]) -> bool {
        let length = self.memory.len();
        (0..length).step_by(8).all(|from| {
            let eight = from..(from + 8).min(length);
            let twin = &self.twin.memory;
            match self.marks[from / 8] {
                0xff => twin[eight.clone()] == self.memory[eight],
                0 => twin[eight.clone()] == before[eight],
                _ => eight.into_iter().all(|i| {
                    let written = is_written(&self.marks, i);
                    twin[i] == if written { self.memory[i] } else { before[i] }
                }),
            }
        })
    }
}

impl Side {
    /// Turns every bit of the lent marks that has no byte of the lent memory.
    fn flip_past_end(&mut self, lent: Lent) {
        for i in lent.memory..lent.marks * 8 {
            let written = is_written(&self.marks, i);
            mark(&mut self.marks, i, !written);
        }
    }

    fn make(&mut self, made: &Made, given: Option<&mut Kept>, buffer: &mut [u8]) -> Answer {
        let kept = given.unwrap_or(&mut self.kept);
        emulate(
            &made.call,
            &mut kept.state,
            &mut kept.records[..made.records()],
            &mut self.memory[..made.lent.memory],
            &mut self.marks[..made.lent.marks],
            buffer,
        )
    }
}

fn stale_of(side: &Side) -> &[Mapping] {
    &side.kept.records[side.kept.mappings().len()..]
}

/// That records are the second program's.
fn same_records(what: &str, records: &[Mapping], others: &[bench::Mapping]) -> Result<(), Fault> {
    match first_other(records, others) {
        None => Ok(()),
        Some(i) => Err(format!(
            "{what} {i} differs: {:x?}, not {:x?}",
            records.get(i),
            others.get(i)
        )),
    }
}

fn check(good: bool, fault: impl FnOnce() -> Fault) -> Result<(), Fault> {
    if good {
        Ok(())
    } else {
        Err(fault())
    }
}

fn differs(what: &str, one: &[u8], other: &[u8]) -> Fault {
    let at = one.iter().zip(other).position(|(a, b)| a != b);
    match at {
        Some(i) => format!(
            "{what} differs at {i}: {:#04x}, not {:#04x}",
            one[i], other[i]
        ),
        None => format!("{what} differs in length"),
    }
}

/// The same written bytes, and other bytes elsewhere.
fn twin_memory(memory: &[u8], marks: &[u8], random: &mut Random) -> Vec<u8> {
    let mut twin = random.bytes(memory.len());
    for i in 0..memory.len() {
        if is_written(marks, i) {
            twin[i] = memory[i];
        }
    }
    twin
}

/// What a stale record may hold: a mapping that would be sound among others, or anything.
fn noise(random: &mut Random) -> Mapping {
    let mut record = Mapping::default();
    record.device.0 = random.number();
    record.memory.0 = random.number() & 0xf_f000;
    record.size = random.number();
    record.rights.0 = random.number() as u32;
    if random.one_in(4) {
        record.device.0 &= 0xf_f000;
        record.memory.0 = 0;
        record.size = 4096;
        record.rights.0 = 3;
    }
    record
}

/// Fills all of a state that means nothing, and the records past its count.
pub fn garble(kept: &mut Kept, random: &mut Random) {
    kept.stale_mut().iter_mut().for_each(|m| *m = noise(random));
    let state = &mut kept.state;
    let words = state.words;
    for (slot, register) in state.registers.slots.iter_mut().enumerate() {
        if !register.is_set() {
            register.set = no(random);
        }
        let used = if register.is_set() {
            value_size(words, slot)
        } else {
            0
        };
        random.fill(&mut register.bytes[used..]);
    }
    if !state.is_running() {
        state.running = no(random);
    }
}

/// A byte of a flag that does not hold: any but 1.
fn no(random: &mut Random) -> u8 {
    random.pick(&[0, 0, 2, 3, 128, 129, 254, 255])
}
