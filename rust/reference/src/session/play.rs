//! Playing a session: each call's outcome is printed and compared with what is expected.

use std::io::{self, Write};

use super::{Call, Session};
use crate::answer::Answer;
use crate::bench::{
    fresh_start, mark_bytes, start, stop, DeviceAddress, Mapping, MemoryAddress, State,
};
use crate::check_save::{check_save, SaveCheck};
use crate::device_files::{
    append_device_record, read_device_file, read_device_record, start_device_file,
};
use crate::lines::{show_line, Line};
use crate::moves::{
    card_read, card_write, forget, host_load, host_store, look_up, Found, NotFound,
};
use crate::parts::{load_parts, save_parts, step};
use crate::queues::{walk_queue, Walked, LONGEST, NUMBERS};
use crate::registers::{read_register, set_register};
use crate::requests::{listed, request};

/// Whether every expectation was met.
pub fn play(session: &Session, out: &mut impl Write) -> io::Result<bool> {
    let mut player = Player::new(session);
    let mut all_met = true;
    for line in &session.lines {
        let printed = player.play(&line.call);
        writeln!(out, "{}: {printed}", line.number)?;
        if let Some(expected) = line.expected.as_ref().filter(|text| **text != printed) {
            writeln!(out, "{}: expected {expected}", line.number)?;
            all_met = false;
        }
    }
    Ok(all_met)
}

struct Player {
    state: State,
    memory: Vec<u8>,
    marks: Vec<u8>,
    garbage: u8,
}

impl Player {
    fn new(session: &Session) -> Player {
        let records = vec![Mapping::filled(session.garbage); session.records];
        Player {
            state: State::fresh_card(session.card, session.memory_size as u64, records),
            memory: vec![session.garbage; session.memory_size],
            marks: vec![0; mark_bytes(session.memory_size)],
            garbage: session.garbage,
        }
    }

    /// An output buffer as it is before a call.
    fn buffer(&self, length: usize) -> Vec<u8> {
        vec![self.garbage; length]
    }

    /// Plays one call and says what is printed behind the line's number.
    fn play(&mut self, call: &Call) -> String {
        match call {
            Call::PowerOn { card } => {
                let answer = fresh_start(&mut self.state, *card, &self.memory, &mut self.marks);
                number(answer)
            }
            Call::Request {
                target,
                number,
                buffer,
            } => self.request(*target, *number, buffer),
            Call::LookUp { device } => looked_up(look_up(&self.state, DeviceAddress(*device))),
            Call::ShowLine { index, line } => line_shown(show_line(&self.state, *index, *line)),
            Call::WalkQueue { queue, last, room } => self.walk_queue(*queue, *last, *room),
            Call::CardRead { device, length } => {
                let device = DeviceAddress(*device);
                let mut buffer = self.buffer(*length);
                let answer = card_read(&self.state, &self.memory, &self.marks, device, &mut buffer);
                number_and_bytes(answer, &buffer)
            }
            Call::CardWrite { device, bytes } => number(card_write(
                &self.state,
                &mut self.memory,
                &mut self.marks,
                DeviceAddress(*device),
                bytes,
            )),
            Call::HostStore { memory, bytes } => number(host_store(
                &self.state,
                &mut self.memory,
                &mut self.marks,
                MemoryAddress(*memory),
                bytes,
            )),
            Call::HostLoad { memory, length } => {
                let address = MemoryAddress(*memory);
                let mut buffer = self.buffer(*length);
                let answer =
                    host_load(&self.state, &self.memory, &self.marks, address, &mut buffer);
                number_and_bytes(answer, &buffer)
            }
            Call::Forget { memory, length } => number(forget(
                &self.state,
                &self.memory,
                &mut self.marks,
                MemoryAddress(*memory),
                *length,
            )),
            Call::SetRegister {
                kind,
                selector,
                value,
            } => number(set_register(&mut self.state, *kind, *selector, value)),
            Call::ReadRegister {
                kind,
                selector,
                room,
            } => {
                let mut buffer = self.buffer(*room);
                let answer = read_register(&self.state, *kind, *selector, &mut buffer);
                number_and_first_bytes(answer, &buffer)
            }
            Call::LoadParts { stream } => number(load_parts(&mut self.state, stream)),
            Call::SaveParts { room } => {
                let mut buffer = self.buffer(*room);
                let answer = save_parts(&self.state, &mut buffer);
                number_and_first_bytes(answer, &buffer)
            }
            Call::Stop => number(stop(&mut self.state)),
            Call::Start => number(start(&mut self.state)),
            Call::Step { place, stream } => walker_step(*place, stream),
            Call::CheckSave { card, stream } => match check_save(*card, stream) {
                SaveCheck::Save => "save".to_string(),
                SaveCheck::DiffersAt(place) => format!("differs at {place}"),
            },
            Call::ReadDeviceFile { file } => device_header(file),
            Call::ReadDeviceRecord { n, file } => device_record(file, *n),
            Call::StartDeviceFile {
                room,
                magic,
                version,
                flags,
            } => {
                let mut buffer = self.buffer(*room);
                let used = start_device_file(&mut buffer, *magic, *version, *flags);
                used_bytes(used, &buffer)
            }
            Call::AppendDeviceRecord {
                room,
                kind,
                content,
                file,
            } => {
                let mut buffer = file.clone();
                buffer.resize(*room, self.garbage);
                let used = append_device_record(&mut buffer, file.len(), *kind, content);
                used_bytes(used, &buffer)
            }
        }
    }

    fn walk_queue(&self, queue: u64, last: u64, room: Option<usize>) -> String {
        let before = u64::from_le_bytes([self.garbage; 8]);
        let mut numbers = vec![before; room.unwrap_or(LONGEST)];
        let (memory, marks) = (&self.memory, &self.marks);
        match walk_queue(&self.state, memory, marks, queue, last, &mut numbers) {
            Ok(Walked { buffers, index }) => {
                let found = listed_buffers(&numbers[..NUMBERS * buffers as usize]);
                format!("ok {buffers} index {index} : {found}")
            }
            Err(refused) => refused.to_string(),
        }
    }

    fn request(&mut self, target: u64, request_number: u64, given: &[Option<u8>]) -> String {
        let mut buffer: Vec<u8> = given
            .iter()
            .map(|byte| byte.unwrap_or(self.garbage))
            .collect();
        let answer = request(
            &mut self.state,
            &self.memory,
            &self.marks,
            target,
            request_number,
            &mut buffer,
        );
        match listed(target, request_number) {
            Some(line) if line.writes && answer.is_ok() => {
                number_and_bytes(answer, &buffer[..line.size])
            }
            _ => number(answer),
        }
    }
}

fn looked_up(answer: Result<Found, NotFound>) -> String {
    match answer {
        Ok(Found {
            memory: MemoryAddress(address),
            rights,
            left,
            probes,
        }) => format!("ok {address} rights {rights} left {left} probes {probes}"),
        Err(not_found) => not_found.to_string(),
    }
}

fn line_shown(answer: Answer<Line>) -> String {
    match answer {
        Ok(line) => format!(
            "ok number {} masked {} pending {} tally {}",
            line.number,
            yes_or_no(line.is_masked()),
            yes_or_no(line.is_pending()),
            line.tally
        ),
        Err(refused) => refused.to_string(),
    }
}

fn yes_or_no(flag: bool) -> &'static str {
    if flag {
        "yes"
    } else {
        "no"
    }
}

/// Each buffer's address, length and flags, or `-`.
fn listed_buffers(numbers: &[u64]) -> String {
    if numbers.is_empty() {
        return "-".to_string();
    }
    let buffers: Vec<String> = numbers
        .chunks(NUMBERS)
        .map(|of| format!("{} length {} flags {}", of[0], of[1], of[2]))
        .collect();
    buffers.join(", ")
}

fn walker_step(place: u64, stream: &[u8]) -> String {
    match step(stream, place) {
        Ok(None) => "end".to_string(),
        Ok(Some(part)) => format!(
            "part {:#x} flags {} selector {} next {} : {}",
            part.kind,
            part.flags,
            part.selector,
            part.next,
            shown(part.value)
        ),
        Err(refused) => refused.to_string(),
    }
}

fn device_header(file: &[u8]) -> String {
    match read_device_file(file) {
        Ok(read) => format!(
            "ok {} magic {:#x} version {} flags {}",
            read.records.len(),
            read.magic,
            read.version,
            read.flags
        ),
        Err(refused) => refused.to_string(),
    }
}

fn device_record(file: &[u8], n: u64) -> String {
    match read_device_record(file, n) {
        Ok(None) => "end".to_string(),
        Ok(Some(record)) => {
            let content = &file[record.content_start..][..record.content_length];
            let (kind, start) = (record.kind, record.start);
            format!("record {kind} start {start} : {}", shown(content))
        }
        Err(refused) => refused.to_string(),
    }
}

/// What a writer of device files left: its result is 0.
fn used_bytes(answer: Answer<usize>, buffer: &[u8]) -> String {
    match answer {
        Ok(used) => format!("ok 0 used {used} : {}", shown(&buffer[..used])),
        Err(refused) => refused.to_string(),
    }
}

fn number(answer: Answer<u64>) -> String {
    match answer {
        Ok(result) => format!("ok {result}"),
        Err(refused) => refused.to_string(),
    }
}

fn number_and_bytes(answer: Answer<u64>, bytes: &[u8]) -> String {
    match answer {
        Ok(result) => format!("ok {result} : {}", shown(bytes)),
        Err(refused) => refused.to_string(),
    }
}

/// The result says how many of the buffer's bytes were written.
fn number_and_first_bytes(answer: Answer<u64>, buffer: &[u8]) -> String {
    match answer {
        Ok(length) => number_and_bytes(answer, &buffer[..length as usize]),
        Err(refused) => refused.to_string(),
    }
}

fn shown(bytes: &[u8]) -> String {
    if bytes.is_empty() {
        return "-".to_string();
    }
    let pairs: Vec<String> = bytes.iter().map(|byte| format!("{byte:02x}")).collect();
    pairs.join(" ")
}
