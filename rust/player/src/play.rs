//! Plays a session on a bench.

use crate::answer::Answer;
use crate::session::{output_size, Call, Pattern, Session, Step};
use glintbasket::{
    check_save, marks_len, Bench, Buffer, Card, DeviceAddress, DeviceFile, DeviceFileWriter, Error,
    IrqIndex, Mapping, MemoryAddress, Parts, Refusal, Rights, Target, Walk, BUFFER_NUMBERS,
    WALKED_MAX,
};

/// A bench's records and memory, each byte of which starts as the session's garbage says, and its marks.
pub struct Store {
    records: Vec<Mapping>,
    memory: Vec<u8>,
    marks: Vec<u8>,
    garbage: u8,
    card: Card,
}

impl Store {
    /// Fails where the machine has not as much memory as the session asks for.
    pub fn new(session: &Session, garbage: u8) -> Result<Store, String> {
        let size = session.memory_size;
        Ok(Store {
            records: vec![record(garbage); session.records],
            memory: filled(size, garbage)?,
            marks: filled(marks_len(size), 0)?,
            garbage,
            card: session.card,
        })
    }

    /// A player on a fresh bench.
    pub fn player(&mut self) -> Player<'_> {
        let garbage = self.garbage;
        let bench = Bench::builder()
            .records(&mut self.records)
            .card(self.card)
            .lend(&mut self.memory, &mut self.marks)
            .expect("records and memory within their limits, with its marks");
        Player { bench, garbage }
    }
}

/// A record that holds this byte.
fn record(byte: u8) -> Mapping {
    let number = u64::from_ne_bytes([byte; 8]);
    Mapping {
        device: DeviceAddress(number),
        memory: MemoryAddress(number),
        size: number,
        rights: Rights(u32::from_ne_bytes([byte; 4])),
    }
}

fn filled(size: usize, byte: u8) -> Result<Vec<u8>, String> {
    let mut bytes = Vec::new();
    bytes
        .try_reserve_exact(size)
        .map_err(|_| format!("this machine cannot give {size} bytes of memory"))?;
    bytes.resize(size, byte);
    Ok(bytes)
}

/// A bench, and the byte that output buffers and stale bytes start as.
pub struct Player<'m> {
    bench: Bench<'m>,
    garbage: u8,
}

/// A step as it was played.
pub struct Played<'s> {
    pub step: &'s Step,
    pub answer: Answer,
    pub refused_byte: Option<RefusedByte>,
}

impl Played<'_> {
    /// The lines to print: the answer, and the expectation where it is not met.
    pub fn lines(&self) -> Vec<String> {
        let number = self.step.line;
        let mut lines = vec![format!("{number}: {}", self.answer)];
        if let Some(expected) = self.unmet() {
            lines.push(format!("{number}: expected {expected}"));
        }
        lines
    }

    /// The expectation, if the answer does not meet it.
    pub fn unmet(&self) -> Option<&str> {
        let expected = self.step.expected.as_deref()?;
        (expected != self.answer.to_string()).then_some(expected)
    }
}

/// A byte at which a move, or the walk of a queue, was refused.
#[derive(Clone, Debug, PartialEq)]
pub struct RefusedByte {
    pub line: usize,
    pub error: Error,
    /// For a move of the card, or a walk.
    pub device: Option<DeviceAddress>,
    /// Unless no mapping held the device address.
    pub memory: Option<MemoryAddress>,
}

impl<'m> Player<'m> {
    /// The session's steps, each played when it is asked for.
    pub fn play<'s>(
        &'s mut self,
        session: &'s Session,
    ) -> impl Iterator<Item = Played<'s>> + use<'s, 'm> {
        session.steps.iter().map(|step| self.step(step))
    }

    pub fn bench(&self) -> &Bench<'m> {
        &self.bench
    }

    fn step<'s>(&mut self, step: &'s Step) -> Played<'s> {
        let answer = self.answer(&step.call).unwrap_or_else(Answer::Refused);
        let refused_byte = match &answer {
            Answer::Refused(error) => self.refused_byte(step, *error),
            _ => None,
        };
        Played {
            step,
            answer,
            refused_byte,
        }
    }

    fn answer(&mut self, call: &Call) -> Result<Answer, Error> {
        let done = Answer::Done(0);
        let bench = &mut self.bench;
        match call {
            Call::PowerOn(card) => bench.power_on_as(*card).map(|()| done),
            Call::Request {
                target,
                number,
                buffer,
            } => self.request(*target, *number, buffer),
            Call::LookUp(device) => Ok(Answer::LookedUp(bench.look_up(*device))),
            Call::ShowLine { index, line } => bench
                .show_line(IrqIndex(unlisted(*index)), unlisted(*line))
                .map(Answer::Shown),
            Call::WalkQueue { queue, last, room } => self.walk_queue(*queue, *last, *room),
            Call::CardRead(device, length) => {
                let mut buffer = vec![self.garbage; *length];
                bench.device_read(*device, &mut buffer)?;
                Ok(Answer::Filled(0, buffer))
            }
            Call::CardWrite(device, bytes) => {
                let bytes = bytes.fill(self.garbage);
                bench.device_write(*device, &bytes).map(|()| done)
            }
            Call::HostStore(memory, bytes) => {
                let bytes = bytes.fill(self.garbage);
                bench.host_write(*memory, &bytes).map(|()| done)
            }
            Call::HostLoad(memory, length) => {
                let mut buffer = vec![self.garbage; *length];
                bench.host_read(*memory, &mut buffer)?;
                Ok(Answer::Filled(0, buffer))
            }
            Call::Forget(memory, length) => bench.invalidate(*memory, *length).map(|()| done),
            Call::SetRegister {
                kind,
                selector,
                value,
            } => {
                let value = value.fill(self.garbage);
                bench.set_register(*kind, *selector, &value).map(|()| done)
            }
            Call::ReadRegister {
                kind,
                selector,
                room,
            } => {
                let mut buffer = vec![self.garbage; *room];
                let length = bench.read_register(*kind, *selector, &mut buffer)?;
                Ok(start_of(buffer, length))
            }
            Call::LoadParts(stream) => {
                let stream = stream.fill(self.garbage);
                bench.load_parts(&stream).map(|()| done)
            }
            Call::SaveParts(room) => {
                let mut buffer = vec![self.garbage; *room];
                let length = bench.save_parts(&mut buffer)?;
                Ok(start_of(buffer, length))
            }
            Call::Stop => bench.stop().map(|()| done),
            Call::Start => bench.start().map(|()| done),
            Call::Step(place, stream) => part_at(*place, &stream.fill(self.garbage)),
            Call::CheckSave(card, stream) => {
                let stream = stream.fill(self.garbage);
                Ok(Answer::Checked(check_save(*card, &stream)))
            }
            Call::ReadDeviceFile(file) => {
                let file = file.fill(self.garbage);
                let read = DeviceFile::parse(&file)?;
                Ok(Answer::FileRead(read.header(), read.record_count()))
            }
            Call::ReadDeviceRecord(n, file) => record_of(*n, &file.fill(self.garbage)),
            Call::StartDeviceFile { room, header } => {
                let mut buffer = vec![self.garbage; *room];
                let writer = DeviceFileWriter::start(&mut buffer, *header)?;
                Ok(Answer::FileWritten(writer.bytes().to_vec()))
            }
            Call::AppendDeviceRecord {
                room,
                kind,
                content,
                file,
            } => {
                let mut buffer = file.fill(self.garbage);
                let used = buffer.len();
                buffer.resize(*room, self.garbage);
                let mut writer = DeviceFileWriter::resume(&mut buffer, used);
                writer.append(*kind, &content.fill(self.garbage))?;
                Ok(Answer::FileWritten(writer.bytes().to_vec()))
            }
        }
    }

    fn request(&mut self, target: u64, number: u64, buffer: &Pattern) -> Result<Answer, Error> {
        let mut buffer = buffer.fill(self.garbage);
        let result = self
            .bench
            .request(Target(unlisted(target)), unlisted(number), &mut buffer)?;
        Ok(match output_size(target, number) {
            Some(size) => {
                buffer.truncate(size);
                Answer::Filled(result, buffer)
            }
            None => Answer::Done(result),
        })
    }

    fn walk_queue(&self, queue: u64, last: u16, room: Option<usize>) -> Result<Answer, Error> {
        let stale = u64::from_ne_bytes([self.garbage; 8]);
        let mut numbers = vec![stale; room.unwrap_or(WALKED_MAX)];
        let walked = self
            .bench
            .walk_queue_into(unlisted(queue), last, &mut numbers)?;
        numbers.truncate(BUFFER_NUMBERS * walked.buffers);
        Ok(Answer::Walked(Walk {
            buffers: Buffer::all(&numbers).collect(),
            index: walked.index,
        }))
    }

    /// Where a refused move or walk met its first faulty byte.
    fn refused_byte(&self, step: &Step, error: Error) -> Option<RefusedByte> {
        let of_a_byte = [Refusal::Unmapped, Refusal::NoRight, Refusal::Unwritten];
        if !of_a_byte.contains(&error.refusal) {
            return None;
        }
        let of_card = |device| {
            let location = self.bench.look_up(device).ok();
            (Some(device), location.map(|l| l.address))
        };
        let (device, memory) = match step.call {
            Call::CardRead(device, _) | Call::CardWrite(device, _) => {
                of_card(DeviceAddress(device.0 + error.place))
            }
            Call::WalkQueue { .. } => of_card(DeviceAddress(error.place)),
            Call::HostLoad(memory, _) => (None, Some(MemoryAddress(memory.0 + error.place))),
            _ => return None,
        };
        Some(RefusedByte {
            line: step.line,
            error,
            device,
            memory,
        })
    }
}

/// The library takes 32 bits. No greater number is that of a request, an index, a line or a queue, and neither is the one that stands for
/// all of them here.
fn unlisted(number: u64) -> u32 {
    u32::try_from(number).unwrap_or(u32::MAX)
}

/// The answer of a call that filled its buffer's first `length` bytes.
fn start_of(mut buffer: Vec<u8>, length: usize) -> Answer {
    buffer.truncate(length);
    Answer::Filled(length as u64, buffer)
}

fn part_at(place: u64, stream: &[u8]) -> Result<Answer, Error> {
    let place = usize::try_from(place).expect("the library asks for 64 bits");
    Ok(match Parts::at(stream, place).step()? {
        Some(part) => Answer::Part {
            kind: part.kind,
            flags: part.flags,
            selector: part.selector,
            next: part.next,
            value: part.value.to_vec(),
        },
        None => Answer::End,
    })
}

fn record_of(n: u64, file: &[u8]) -> Result<Answer, Error> {
    Ok(match DeviceFile::parse(file)?.record(n) {
        Some(record) => Answer::Record {
            kind: record.kind,
            start: record.start,
            content: record.bytes.to_vec(),
        },
        None => Answer::End,
    })
}
