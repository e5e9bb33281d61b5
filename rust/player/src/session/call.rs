//! Calls: a word that names the call, and its arguments.

use super::bytes::{self, Pattern, Stale, BYTES_MAX};
use super::number::Number;
use super::request;
use super::words::{quoted, Words};
use glintbasket::device_file::Header;
use glintbasket::{Card, DeviceAddress, MemoryAddress};

/// One call, with its arguments.
#[derive(Clone, Debug, PartialEq)]
pub enum Call {
    PowerOn(Card),
    Request {
        target: u64,
        number: u64,
        buffer: Pattern,
    },
    LookUp(DeviceAddress),
    ShowLine {
        index: u64,
        line: u64,
    },
    /// Without room, there is enough.
    WalkQueue {
        queue: u64,
        last: u16,
        room: Option<usize>,
    },
    CardRead(DeviceAddress, usize),
    CardWrite(DeviceAddress, Pattern),
    HostStore(MemoryAddress, Pattern),
    HostLoad(MemoryAddress, usize),
    Forget(MemoryAddress, u64),
    SetRegister {
        kind: u64,
        selector: u64,
        value: Pattern,
    },
    ReadRegister {
        kind: u64,
        selector: u64,
        room: usize,
    },
    LoadParts(Pattern),
    SaveParts(usize),
    Stop,
    Start,
    Step(u64, Pattern),
    CheckSave(Card, Pattern),
    ReadDeviceFile(Pattern),
    ReadDeviceRecord(u64, Pattern),
    StartDeviceFile {
        room: usize,
        header: Header,
    },
    /// The file is the bytes in use, cut off where the room ends.
    AppendDeviceRecord {
        room: usize,
        kind: u32,
        content: Pattern,
        file: Pattern,
    },
}

/// The first words of calls, and their forms.
const FORMS: [(&str, &str); 22] = [
    ("power-on", "`power-on [card CARD]`"),
    ("request", "`request TARGET NUMBER BYTES`"),
    ("look-up", "`look-up DEVICE`"),
    ("show-line", "`show-line INDEX LINE`"),
    ("walk-queue", "`walk-queue QUEUE LAST [room N]`"),
    ("card-read", "`card-read DEVICE LENGTH`"),
    ("card-write", "`card-write DEVICE BYTES`"),
    ("host-store", "`host-store MEMORY BYTES`"),
    ("host-load", "`host-load MEMORY LENGTH`"),
    ("forget", "`forget MEMORY LENGTH`"),
    ("set-register", "`set-register TYPE SELECTOR BYTES`"),
    ("read-register", "`read-register TYPE SELECTOR ROOM`"),
    ("load-parts", "`load-parts BYTES`"),
    ("save-parts", "`save-parts ROOM`"),
    ("stop", "`stop`"),
    ("start", "`start`"),
    ("step", "`step PLACE BYTES`"),
    ("check-save", "`check-save [card CARD] BYTES`"),
    ("read-device-file", "`read-device-file BYTES`"),
    ("read-device-record", "`read-device-record N BYTES`"),
    (
        "start-device-file",
        "`start-device-file ROOM MAGIC VERSION FLAGS`",
    ),
    (
        "append-device-record",
        "`append-device-record ROOM TYPE BYTES to BYTES`",
    ),
];

/// The call of a line; none if one of its words has a fault.
pub fn read(words: &mut Words) -> Option<Call> {
    let word = words.next()?;
    let name = word.plain().unwrap_or("\"..\"");
    let Some((name, form)) = FORMS.iter().find(|(known, _)| *known == name) else {
        words.fault(word.column, no_such_call(name));
        return None;
    };
    let call = arguments(name, words);
    words.finish(form);
    call
}

/// The arguments of a known call. All are read before any is required, so that each fault is noted.
fn arguments(name: &str, words: &mut Words) -> Option<Call> {
    match name {
        "power-on" => Some(Call::PowerOn(super::card(words).unwrap_or_default())),
        "request" => request::read(words),
        "look-up" => device(words).map(Call::LookUp),
        "show-line" => {
            let index = words.number(&Number::any("INDEX"));
            let line = words.number(&Number::any("LINE"));
            Some(Call::ShowLine {
                index: index?,
                line: line?,
            })
        }
        "walk-queue" => {
            let queue = words.number(&Number::any("QUEUE"));
            let last = words.number(&Number::up_to("LAST", u64::from(u16::MAX)));
            let room = super::named(words, "room", &Number::up_to("N", BYTES_MAX));
            Some(Call::WalkQueue {
                queue: queue?,
                last: last? as u16,
                room: room.map(|count| count as usize),
            })
        }
        "card-read" => {
            let (device, length) = (device(words), length("LENGTH", words));
            Some(Call::CardRead(device?, length?))
        }
        "card-write" => {
            let (device, bytes) = (device(words), given(words));
            Some(Call::CardWrite(device?, bytes))
        }
        "host-store" => {
            let (memory, bytes) = (memory(words), given(words));
            Some(Call::HostStore(memory?, bytes))
        }
        "host-load" => {
            let (memory, length) = (memory(words), length("LENGTH", words));
            Some(Call::HostLoad(memory?, length?))
        }
        "forget" => {
            let (memory, length) = (memory(words), words.number(&Number::any("LENGTH")));
            Some(Call::Forget(memory?, length?))
        }
        "set-register" => {
            let (kind, selector) = register(words);
            let value = given(words);
            Some(Call::SetRegister {
                kind: kind?,
                selector: selector?,
                value,
            })
        }
        "read-register" => {
            let (kind, selector) = register(words);
            let room = length("ROOM", words);
            Some(Call::ReadRegister {
                kind: kind?,
                selector: selector?,
                room: room?,
            })
        }
        "load-parts" => Some(Call::LoadParts(given(words))),
        "save-parts" => length("ROOM", words).map(Call::SaveParts),
        "stop" => Some(Call::Stop),
        "start" => Some(Call::Start),
        "step" => {
            let (place, stream) = (words.number(&Number::any("PLACE")), given(words));
            Some(Call::Step(place?, stream))
        }
        "check-save" => {
            let card = super::card(words).unwrap_or_default();
            Some(Call::CheckSave(card, given(words)))
        }
        "read-device-file" => Some(Call::ReadDeviceFile(given(words))),
        "read-device-record" => {
            let (n, file) = (words.number(&Number::any("N")), given(words));
            Some(Call::ReadDeviceRecord(n?, file))
        }
        "start-device-file" => {
            let room = length("ROOM", words);
            let magic = four_bytes("MAGIC", words);
            let version = four_bytes("VERSION", words);
            let flags = four_bytes("FLAGS", words);
            Some(Call::StartDeviceFile {
                room: room?,
                header: Header {
                    magic: magic?,
                    version: version?,
                    flags: flags?,
                },
            })
        }
        "append-device-record" => {
            let (room, kind) = (length("ROOM", words), four_bytes("TYPE", words));
            let content = bytes::read_up_to(words, "to");
            let file = given(words);
            Some(Call::AppendDeviceRecord {
                room: room?,
                kind: kind?,
                content,
                file,
            })
        }
        _ => unreachable!("FORMS has no other call"),
    }
}

fn device(words: &mut Words) -> Option<DeviceAddress> {
    words.number(&Number::any("DEVICE")).map(DeviceAddress)
}

fn memory(words: &mut Words) -> Option<MemoryAddress> {
    words.number(&Number::any("MEMORY")).map(MemoryAddress)
}

/// The length of a buffer.
fn length(name: &'static str, words: &mut Words) -> Option<usize> {
    let length = words.number(&Number::up_to(name, BYTES_MAX))?;
    Some(length as usize)
}

/// A number of four bytes.
fn four_bytes(name: &'static str, words: &mut Words) -> Option<u32> {
    let number = words.number(&Number::up_to(name, u64::from(u32::MAX)))?;
    Some(number as u32)
}

fn register(words: &mut Words) -> (Option<u64>, Option<u64>) {
    let kind = words.number(&Number::any("TYPE"));
    let selector = words.number(&Number::any("SELECTOR"));
    (kind, selector)
}

/// Bytes of which none is stale.
fn given(words: &mut Words) -> Pattern {
    bytes::read(words, Stale::Forbidden)
}

fn no_such_call(name: &str) -> String {
    let names: Vec<&str> = FORMS.iter().map(|(known, _)| *known).collect();
    let name = quoted(name);
    format!("{name} is no call; calls are {}", names.join(", "))
}
