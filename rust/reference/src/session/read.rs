//! Reading a session file: the whole file is judged, and all its faults are given.

use super::names::{request_named, Field, Named, REQUESTS};
use super::words::{cut, Cut, Form, Word};
use super::{Call, Fault, Line, Session};
use crate::bench::{DEFAULT_RECORDS, RECORD_LIMIT};
use crate::bytes::put_number;
use crate::registers::Words;
use crate::requests::{listed, CONTAINER, DEVICE};

/// Of LENGTH and ROOM of buffers, and of the bytes that one line may write out.
const BUFFER_LIMIT: u64 = 1 << 20;
const MEMORY_LIMIT: u64 = 1 << 30;
const DEFAULT_GARBAGE: u8 = 0xa5;

const CALLS: &str = "power-on, request, look-up, show-line, walk-queue, card-read, card-write, \
                     host-store, host-load, forget, set-register, read-register, load-parts, \
                     save-parts, stop, start, step, check-save, read-device-file, \
                     read-device-record, start-device-file, append-device-record";

/// Reads a file's bytes.
pub fn read(file: &[u8]) -> Result<Session, Vec<Fault>> {
    let mut reader = Reader::default();
    for (i, line) in file.split(|byte| *byte == b'\n').enumerate() {
        reader.read_line(i + 1, line);
    }
    reader.finish()
}

/// A BYTE: a NUMBER of at most 255.
pub fn byte(word: &str) -> Result<u8, String> {
    number_up_to("BYTE", word, 255).map(|number| number as u8)
}

#[derive(Default)]
struct Reader {
    /// Once it was met (also a faulty one).
    memory: Option<FirstLine>,
    lines: Vec<Line>,
    faults: Vec<Fault>,
}

/// What the `memory` line says.
#[derive(Default)]
struct FirstLine {
    size: u64,
    garbage: u8,
    card: Words,
    records: u64,
}

impl Reader {
    fn fault(&mut self, line: usize, column: usize, message: impl Into<String>) {
        self.faults.push(Fault {
            line,
            column,
            message: message.into(),
        });
    }

    fn read_line(&mut self, number: usize, line: &[u8]) {
        match std::str::from_utf8(line) {
            Err(error) => {
                let good = String::from_utf8_lossy(&line[..error.valid_up_to()]);
                self.fault(number, good.chars().count() + 1, "not UTF-8");
            }
            Ok(line) => match cut(number, line) {
                Err(fault) => self.faults.push(fault),
                Ok(cut) => self.read_words(number, cut),
            },
        }
    }

    fn read_words(&mut self, number: usize, cut: Cut) {
        let mut arguments = Arguments {
            line: number,
            words: cut.words,
            taken: 0,
            end: cut.end,
            missed: false,
            faults: Vec::new(),
        };
        let expected = cut.expected;
        match arguments.next() {
            None => {
                if let Some((column, _)) = expected {
                    self.fault(number, column, "an expectation without a call");
                }
            }
            Some(word) if word.form == Form::Plain("memory".to_string()) => {
                if let Some((column, _)) = expected {
                    self.fault(
                        number,
                        column,
                        "`memory` is no call, so nothing is expected",
                    );
                }
                self.read_memory(word.column, arguments);
            }
            Some(word) => {
                if let Some((column, _)) = expected.as_ref().filter(|(_, text)| text.is_empty()) {
                    self.fault(number, *column, "no text behind =>");
                }
                self.read_call(number, &word, arguments, expected.map(|(_, text)| text));
            }
        }
    }

    fn read_memory(&mut self, column: usize, mut arguments: Arguments) {
        let first = FirstLine {
            size: arguments.number_up_to("SIZE", MEMORY_LIMIT),
            garbage: arguments.garbage(),
            card: arguments.card(),
            records: arguments.records(),
        };
        arguments.no_more();
        if self.memory.is_some() {
            self.fault(arguments.line, column, "a second `memory` line");
        }
        self.memory = Some(first);
        self.faults.extend(arguments.faults);
    }

    fn read_call(
        &mut self,
        number: usize,
        word: &Word,
        mut arguments: Arguments,
        expected: Option<String>,
    ) {
        if self.memory.is_none() {
            self.fault(
                number,
                word.column,
                "`memory SIZE` must come before all calls",
            );
            self.memory = Some(FirstLine::default()); // say it once
        }
        let call = arguments.call(word);
        self.faults.extend(arguments.faults);
        if let Some(call) = call {
            self.lines.push(Line {
                number,
                call,
                expected,
            });
        }
    }

    fn finish(mut self) -> Result<Session, Vec<Fault>> {
        if self.memory.is_none() && self.faults.is_empty() {
            self.fault(1, 1, "no `memory SIZE` line");
        }
        self.faults.sort_by_key(|fault| (fault.line, fault.column));
        match self.memory {
            Some(first) if self.faults.is_empty() => Ok(Session {
                memory_size: first.size as usize,
                garbage: first.garbage,
                card: first.card,
                records: first.records as usize,
                lines: self.lines,
            }),
            _ => Err(self.faults),
        }
    }
}

/// The words of a line, taken one after the other. A faulty word is noted and stands for 0 or no
/// bytes, so that the words behind it are judged, too.
struct Arguments {
    line: usize,
    words: Vec<Word>,
    taken: usize,
    end: usize,
    /// Whether a missing word was noted: those behind it are missing, too.
    missed: bool,
    faults: Vec<Fault>,
}

impl Arguments {
    fn fault(&mut self, column: usize, message: impl Into<String>) {
        self.faults.push(Fault {
            line: self.line,
            column,
            message: message.into(),
        });
    }

    fn missing(&mut self, message: impl Into<String>) {
        if !self.missed {
            self.fault(self.end, message);
            self.missed = true;
        }
    }

    fn next(&mut self) -> Option<Word> {
        let word = self.words.get(self.taken).cloned();
        self.taken += 1;
        word
    }

    fn no_more(&mut self) {
        if let Some(word) = self.next() {
            self.fault(word.column, "nothing more is expected on this line");
        }
    }

    /// The next word, which must be there and plain.
    fn plain(&mut self, name: &str) -> Option<(usize, String)> {
        match self.next() {
            None => {
                self.missing(format!("{name} is missing"));
                None
            }
            Some(Word { column, form }) => match form {
                Form::Plain(text) => Some((column, text)),
                Form::Text(_) => {
                    self.fault(column, format!("{name} cannot be a text"));
                    None
                }
            },
        }
    }

    fn number(&mut self, name: &str) -> u64 {
        self.number_up_to(name, u64::MAX)
    }

    fn number_up_to(&mut self, name: &str, limit: u64) -> u64 {
        let Some((column, text)) = self.plain(name) else {
            return 0;
        };
        self.noted(column, number_up_to(name, &text, limit))
    }

    /// A value, or its fault noted and a default in its place.
    fn noted<T: Default>(&mut self, column: usize, value: Result<T, String>) -> T {
        value.unwrap_or_else(|message| {
            self.fault(column, message);
            T::default()
        })
    }

    /// A number of four bytes.
    fn word(&mut self, name: &str) -> u64 {
        self.number_up_to(name, u64::from(u32::MAX))
    }

    fn length(&mut self, name: &str) -> usize {
        self.number_up_to(name, BUFFER_LIMIT) as usize
    }

    /// Takes the next word if it is this one.
    fn takes(&mut self, name: &str) -> bool {
        let next = self.words.get(self.taken);
        let is = next.is_some_and(|word| word.form == Form::Plain(name.to_string()));
        self.taken += usize::from(is);
        is
    }

    /// `[garbage BYTE]`
    fn garbage(&mut self) -> u8 {
        if self.takes("garbage") {
            return self.number_up_to("BYTE", 255) as u8;
        }
        DEFAULT_GARBAGE
    }

    /// `[card 64]` or `[card 128]`: the words of the card's features, of the first card where
    /// nothing is said.
    fn card(&mut self) -> Words {
        if !self.takes("card") {
            return 1;
        }
        match self.plain("CARD") {
            Some((_, text)) if text == "64" => 1,
            Some((_, text)) if text == "128" => 2,
            Some((column, _)) => {
                self.fault(column, "a card is 64 or 128, by its feature bits");
                1
            }
            None => 1,
        }
    }

    /// `[mappings N]`.
    fn records(&mut self) -> u64 {
        if self.takes("mappings") {
            return self.number_up_to("N", RECORD_LIMIT as u64);
        }
        DEFAULT_RECORDS as u64
    }

    /// `[room N]`.
    fn room(&mut self) -> Option<usize> {
        self.takes("room").then(|| self.length("N"))
    }

    /// BYTES in which none may be stale, not even none of them (`?*0`).
    fn bytes(&mut self) -> Vec<u8> {
        let left = self.taken.min(self.words.len());
        let is_stale =
            |word: &&Word| matches!(&word.form, Form::Plain(text) if text.starts_with("?*"));
        let stale = self.words[left..]
            .iter()
            .find(is_stale)
            .map(|word| word.column);
        let bytes = self.bytes_or_stale();
        if let Some(column) = stale {
            self.fault(column, "stale bytes may stand only in a request's buffer");
        }
        bytes.into_iter().filter_map(|(_, byte)| byte).collect()
    }

    /// BYTES up to a word, which is taken, too.
    fn bytes_up_to(&mut self, name: &str) -> Vec<u8> {
        let is_it = |word: &Word| word.form == Form::Plain(name.to_string());
        let from = self.taken.min(self.words.len());
        let Some(count) = self.words[from..].iter().position(is_it) else {
            let bytes = self.bytes();
            self.missing(format!("`{name}` is missing"));
            return bytes;
        };
        let behind = self.words.split_off(from + count);
        let end = std::mem::replace(&mut self.end, behind[0].column);
        let bytes = self.bytes();
        self.end = end;
        self.words.truncate(from);
        self.words.extend(behind);
        self.taken = from + 1;
        bytes
    }

    /// All words that are left as BYTES, each byte with the column of its word.
    fn bytes_or_stale(&mut self) -> Vec<(usize, Option<u8>)> {
        let words = self.words.split_off(self.taken.min(self.words.len()));
        if words.is_empty() {
            self.missing("BYTES are missing (- stands for no bytes)");
        }
        let alone = words.len() == 1;
        let mut bytes = Vec::new();
        for word in words {
            let column = word.column;
            let of_word = match word.form {
                Form::Text(text) => text.into_iter().map(Some).collect(),
                Form::Plain(text) if text == "-" && alone => Vec::new(),
                Form::Plain(text) => self.noted(column, bytes_of_word(&text)),
            };
            if bytes.len() + of_word.len() > BUFFER_LIMIT as usize {
                self.fault(column, format!("more than {BUFFER_LIMIT} bytes"));
                return Vec::new();
            }
            bytes.extend(of_word.into_iter().map(|byte| (column, byte)));
        }
        bytes
    }

    fn call(&mut self, name: &Word) -> Option<Call> {
        let Form::Plain(text) = &name.form else {
            self.fault(name.column, "a call is expected, not a text");
            return None;
        };
        let call = match text.as_str() {
            "power-on" => Call::PowerOn { card: self.card() },
            "request" => return self.request(),
            "look-up" => Call::LookUp {
                device: self.number("DEVICE"),
            },
            "show-line" => Call::ShowLine {
                index: self.number("INDEX"),
                line: self.number("LINE"),
            },
            "walk-queue" => Call::WalkQueue {
                queue: self.number("QUEUE"),
                last: self.number_up_to("LAST", 65_535),
                room: self.room(),
            },
            "card-read" => Call::CardRead {
                device: self.number("DEVICE"),
                length: self.length("LENGTH"),
            },
            "card-write" => Call::CardWrite {
                device: self.number("DEVICE"),
                bytes: self.bytes(),
            },
            "host-store" => Call::HostStore {
                memory: self.number("MEMORY"),
                bytes: self.bytes(),
            },
            "host-load" => Call::HostLoad {
                memory: self.number("MEMORY"),
                length: self.length("LENGTH"),
            },
            "forget" => Call::Forget {
                memory: self.number("MEMORY"),
                length: self.number("LENGTH"),
            },
            "set-register" => Call::SetRegister {
                kind: self.number("TYPE"),
                selector: self.number("SELECTOR"),
                value: self.bytes(),
            },
            "read-register" => Call::ReadRegister {
                kind: self.number("TYPE"),
                selector: self.number("SELECTOR"),
                room: self.length("ROOM"),
            },
            "load-parts" => Call::LoadParts {
                stream: self.bytes(),
            },
            "save-parts" => Call::SaveParts {
                room: self.length("ROOM"),
            },
            "stop" => Call::Stop,
            "start" => Call::Start,
            "step" => Call::Step {
                place: self.number("PLACE"),
                stream: self.bytes(),
            },
            "check-save" => Call::CheckSave {
                card: self.card(),
                stream: self.bytes(),
            },
            "read-device-file" => Call::ReadDeviceFile { file: self.bytes() },
            "read-device-record" => Call::ReadDeviceRecord {
                n: self.number("N"),
                file: self.bytes(),
            },
            "start-device-file" => Call::StartDeviceFile {
                room: self.length("ROOM"),
                magic: self.word("MAGIC"),
                version: self.word("VERSION"),
                flags: self.word("FLAGS"),
            },
            "append-device-record" => Call::AppendDeviceRecord {
                room: self.length("ROOM"),
                kind: self.word("TYPE"),
                content: self.bytes_up_to("to"),
                file: self.bytes(),
            },
            _ => {
                self.fault(
                    name.column,
                    format!("unknown call {text:?}; there are {CALLS}"),
                );
                return None;
            }
        };
        self.no_more();
        Some(call)
    }

    /// By number with its whole buffer, or by name with its fields.
    fn request(&mut self) -> Option<Call> {
        let target = self.target();
        let (column, word) = self.plain("NUMBER or NAME")?;
        if word.starts_with(|c: char| c.is_ascii_digit()) {
            let number = self.noted(column, number_up_to("NUMBER", &word, u64::MAX));
            let bytes = self.bytes_or_stale();
            return Some(Call::Request {
                target: target?,
                number,
                buffer: bytes.into_iter().map(|(_, byte)| byte).collect(),
            });
        }
        let target = target?;
        let Some(named) = request_named(target, &word) else {
            self.fault(column, no_such_name(target, &word));
            return None;
        };
        Some(Call::Request {
            target,
            number: named.number,
            buffer: self.fields(named),
        })
    }

    fn target(&mut self) -> Option<u64> {
        let (column, word) = self.plain("TARGET")?;
        match word.as_str() {
            "container" => Some(CONTAINER),
            "device" => Some(DEVICE),
            _ => match number_up_to("TARGET", &word, u64::MAX) {
                Ok(number) => Some(number),
                Err(_) => {
                    let message = format!(
                        "TARGET must be `container`, `device` or a number up to 2^64 - 1, \
                         not {word:?}"
                    );
                    self.fault(column, message);
                    None
                }
            },
        }
    }

    /// The buffer of a request by name.
    fn fields(&mut self, named: &Named) -> Vec<Option<u8>> {
        let size = listed(named.target, named.number).map_or(0, |line| line.size);
        let mut given: Vec<(String, u64)> = Vec::new();
        let mut data = Vec::new();
        while let Some(word) = self.next() {
            if named.data && word.form == Form::Plain("data".to_string()) {
                data = self.bytes_or_stale();
                break;
            }
            if let Some((name, number)) = self.field(named, &word) {
                if given.iter().any(|(other, _)| *other == name) {
                    self.fault(word.column, format!("{name} is given twice"));
                }
                given.push((name, number));
            }
        }
        let find = |name: &str| given.iter().find(|(other, _)| other == name);
        let whole = size + data.len();
        let room = find("room").map_or(whole, |(_, room)| *room as usize);
        let mut buffer = vec![None; size];
        for field in named.fields {
            let default = if field.name == "argsz" {
                whole as u64
            } else {
                0
            };
            let number = find(field.name).map_or(default, |(_, number)| *number);
            put_field(&mut buffer, field, number);
        }
        buffer.extend(data.into_iter().map(|(_, byte)| byte));
        buffer.resize(room, None); // fields and data are cut off where it ends
        buffer
    }

    /// FIELD=NUMBER
    fn field(&mut self, named: &Named, word: &Word) -> Option<(String, u64)> {
        let halves = match &word.form {
            Form::Plain(text) => text.split_once('='),
            Form::Text(_) => None,
        };
        let Some((name, number)) = halves else {
            let or_data = if named.data { ", or `data BYTES`," } else { "" };
            let message = format!("FIELD=NUMBER{or_data} is expected here");
            self.fault(word.column, message);
            return None;
        };
        let limit = match named.fields.iter().find(|field| field.name == name) {
            Some(field) if field.width == 4 => u64::from(u32::MAX),
            Some(_) => u64::MAX,
            None if name == "room" => BUFFER_LIMIT,
            None => {
                self.fault(word.column, no_such_field(named, name));
                return None;
            }
        };
        let number = self.noted(word.column, number_up_to(name, number, limit));
        Some((name.to_string(), number))
    }
}

fn put_field(buffer: &mut [Option<u8>], field: &Field, number: u64) {
    let mut bytes = vec![0; field.width];
    put_number(&mut bytes, 0, field.width, number);
    for (i, byte) in bytes.into_iter().enumerate() {
        buffer[field.offset + i] = Some(byte);
    }
}

fn no_such_name(target: u64, word: &str) -> String {
    let names: Vec<&str> = REQUESTS
        .iter()
        .filter(|request| request.target == target)
        .map(|request| request.name)
        .collect();
    if names.is_empty() {
        return format!("target {target} has no requests by name, but NUMBER was {word:?}");
    }
    format!(
        "no request {word:?} of this target; there are {}, or a number",
        names.join(", ")
    )
}

fn no_such_field(named: &Named, name: &str) -> String {
    let mut names: Vec<&str> = named.fields.iter().map(|field| field.name).collect();
    names.push("room");
    format!(
        "{} has no field {name:?}; there are {}",
        named.name,
        names.join(", ")
    )
}

/// A NUMBER of at most `limit`; `name` says what it is for.
fn number_up_to(name: &str, word: &str, limit: u64) -> Result<u64, String> {
    let (digits, radix) = match word.strip_prefix("0x") {
        Some(digits) => (digits, 16),
        None => (word, 10),
    };
    if digits.is_empty() || !digits.chars().all(|c| c.is_digit(radix)) {
        return Err(format!(
            "{name} must be a number, decimal or hexadecimal with 0x, not {word:?}"
        ));
    }
    // All are digits, so only a number over 2^64 - 1 fails here.
    match u64::from_str_radix(digits, radix) {
        Ok(number) if number <= limit => Ok(number),
        _ => Err(format!("{name} is at most {limit}, not {word}")),
    }
}

/// `5a`, `5a5b5c`, `00*8` or `?*4`.
fn bytes_of_word(word: &str) -> Result<Vec<Option<u8>>, String> {
    match word.split_once('*') {
        Some(("?", times)) => Ok(vec![None; times_of_word(times)?]),
        Some((pair, times)) if pair.len() == 2 => {
            let byte = pairs(pair)?[0];
            Ok(vec![byte; times_of_word(times)?])
        }
        Some(_) => Err(format!(
            "{word:?}: only a pair of hexadecimal digits or ? can be repeated"
        )),
        None => pairs(word),
    }
}

fn times_of_word(times: &str) -> Result<usize, String> {
    number_up_to("the number behind *", times, BUFFER_LIMIT).map(|times| times as usize)
}

fn pairs(word: &str) -> Result<Vec<Option<u8>>, String> {
    let digits: Option<Vec<u32>> = word.chars().map(|c| c.to_digit(16)).collect();
    match digits {
        Some(digits) if digits.len() % 2 == 0 => Ok(digits
            .chunks(2)
            .map(|pair| Some((pair[0] * 16 + pair[1]) as u8))
            .collect()),
        _ => Err(format!(
            "{word:?} is not made of pairs of hexadecimal digits"
        )),
    }
}

#[cfg(test)]
mod tests {
    use super::*;

    /// Lines and columns of a file's faults.
    fn faults(file: &str) -> Vec<(usize, usize)> {
        read(file.as_bytes())
            .unwrap_err()
            .iter()
            .map(|fault| (fault.line, fault.column))
            .collect()
    }

    /// The one call of a session of no memory.
    fn call(line: &str) -> Call {
        let session = read(format!("memory 0\n{line}\n").as_bytes()).unwrap();
        assert_eq!(session.lines.len(), 1);
        session.lines[0].call.clone()
    }

    fn request_buffer(line: &str) -> Vec<Option<u8>> {
        match call(line) {
            Call::Request { buffer, .. } => buffer,
            other => panic!("no request: {other:?}"),
        }
    }

    #[test]
    fn memory_may_name_the_garbage() {
        let session = read(b"# a comment\n\nmemory 0x1000 # more\n").unwrap();
        assert_eq!((session.memory_size, session.garbage), (4_096, 0xa5));
        let session = read(b"memory 1073741824 garbage 7").unwrap();
        assert_eq!((session.memory_size, session.garbage), (1 << 30, 7));
    }

    #[test]
    fn memory_may_name_how_many_mappings_there_is_room_for() {
        let records = |line: &str| read(line.as_bytes()).unwrap().records;
        assert_eq!(records("memory 0"), 64);
        assert_eq!(records("memory 0 mappings 0"), 0);
        assert_eq!(
            records("memory 0 garbage 7 card 128 mappings 0x1000"),
            4_096
        );
        assert_eq!(faults("memory 0 mappings 4097"), [(1, 19)]);
        assert_eq!(faults("memory 0 mappings -1"), [(1, 19)]);
        assert_eq!(faults("memory 0 mappings"), [(1, 18)]);
        assert_eq!(faults("memory 0 mappings 1 card 128"), [(1, 21)]);
    }

    #[test]
    fn numbers_are_decimal_or_hexadecimal_and_fit_64_bits() {
        let device = |word: &str| call(&format!("look-up {word}"));
        let found = |device| Call::LookUp { device };
        assert_eq!(device("010"), found(10));
        assert_eq!(device("0xfF"), found(255));
        assert_eq!(device("18446744073709551615"), found(u64::MAX));
        assert_eq!(device("0xffffffffffffffff"), found(u64::MAX));
        let wrong = [
            "18446744073709551616",
            "0x10000000000000000",
            "+1",
            "-1",
            "0x",
            "1a",
            "0X1",
        ];
        for word in wrong {
            let file = format!("memory 0\nlook-up {word}");
            assert_eq!(faults(&file), [(2, 9)], "{word}");
        }
    }

    #[test]
    fn bytes_are_pairs_repetitions_and_texts() {
        let stream = |words: &str| call(&format!("load-parts {words}"));
        let found = |stream: &[u8]| Call::LoadParts {
            stream: stream.to_vec(),
        };
        assert_eq!(stream("-"), found(&[]));
        assert_eq!(stream("5A 5b5c"), found(&[0x5a, 0x5b, 0x5c]));
        assert_eq!(stream("00*3 \"a b\" ff"), found(b"\0\0\0a b\xff"));
        assert_eq!(stream("ff*0x2 00*0"), found(&[255, 255]));
        for words in ["5", "5a5", "5g", "?", "?*4", "5a5b*2", "5a*", "*2", "5a*-1"] {
            let file = format!("memory 0\nload-parts {words}");
            assert_eq!(faults(&file), [(2, 12)], "{words}");
        }
        assert_eq!(faults("memory 0\nload-parts 00 -"), [(2, 15)]);
        assert_eq!(faults("memory 0\nload-parts"), [(2, 11)]);
        assert_eq!(faults("memory 0\nload-parts 00*1048576 00"), [(2, 23)]);
    }

    #[test]
    fn a_request_by_number_has_its_whole_buffer_written_out() {
        let expected = Call::Request {
            target: 1,
            number: 107,
            buffer: vec![Some(16), Some(0), None, None],
        };
        assert_eq!(call("request device 107 10 00 ?*2"), expected);
        assert_eq!(call("request 1 0x6b 1000 ?*2"), expected);
    }

    #[test]
    fn a_request_by_name_has_its_fields_and_is_stale_elsewhere() {
        let some = |bytes: &[u8]| bytes.iter().copied().map(Some).collect::<Vec<_>>();
        let stale = |count| vec![None; count];
        let region = request_buffer("request device region-info index=7");
        let expected = [
            some(&[32, 0, 0, 0]),
            stale(4),
            some(&[7, 0, 0, 0]),
            stale(20),
        ]
        .concat();
        assert_eq!(region, expected);
        let unmap = request_buffer("request container unmap size=0x2000 device=1 room=26");
        let mut expected = some(&[24, 0, 0, 0, 0, 0, 0, 0]);
        expected.extend(some(&[1, 0, 0, 0, 0, 0, 0, 0]));
        expected.extend(some(&[0, 0x20, 0, 0, 0, 0, 0, 0]));
        expected.extend(stale(2));
        assert_eq!(unmap, expected);
        let short = request_buffer("request device region-info index=0x0403 room=9");
        assert_eq!(short, [some(&[32, 0, 0, 0]), stale(4), some(&[3])].concat());
        assert_eq!(request_buffer("request device reset room=2"), stale(2));
        assert_eq!(request_buffer("request container api-version"), []);
        let set = request_buffer("request container set-iommu number=0x103 room=5");
        assert_eq!(set, [some(&[3, 1, 0, 0]), stale(1)].concat());
    }

    #[test]
    fn data_stand_behind_the_fields() {
        let some = |bytes: &[u8]| bytes.iter().copied().map(Some).collect::<Vec<_>>();
        let set = request_buffer("request device set-irqs count=2 flags=34 data 01 ?*1");
        let mut expected = some(&[22, 0, 0, 0, 34, 0, 0, 0, 0, 0, 0, 0, 0, 0, 0, 0]);
        expected.extend(some(&[2, 0, 0, 0, 1]));
        expected.push(None);
        assert_eq!(set, expected);
        let cut = request_buffer("request device set-irqs flags=34 count=2 room=21 data 01 ?*1");
        assert_eq!(cut, expected[..21]);
        let long = request_buffer("request device set-irqs room=24 argsz=7 data 01");
        assert_eq!(long[0], Some(7));
        assert_eq!(long[20..], [Some(1), None, None, None]);
        let none = request_buffer("request device set-irqs data -");
        assert_eq!(none, request_buffer("request device set-irqs"));
        assert_eq!(none.len(), 20);
        let show = Call::ShowLine { index: 1, line: 7 };
        assert_eq!(call("show-line 1 0x7"), show);
    }

    #[test]
    fn a_walk_may_name_its_room() {
        let walk = |queue, last, room| Call::WalkQueue { queue, last, room };
        assert_eq!(call("walk-queue 0 0xffff"), walk(0, 65_535, None));
        assert_eq!(call("walk-queue 4294967296 1"), walk(1 << 32, 1, None));
        assert_eq!(call("walk-queue 3 1 room 0"), walk(3, 1, Some(0)));
        let most = walk(3, 1, Some(1 << 20));
        assert_eq!(call("walk-queue 3 1 room 1048576"), most);
    }

    #[test]
    fn a_record_is_appended_to_a_file() {
        let append = |content: &[u8], file: &[u8]| Call::AppendDeviceRecord {
            room: 64,
            kind: 2,
            content: content.to_vec(),
            file: file.to_vec(),
        };
        let read = |words: &str| call(&format!("append-device-record 64 2 {words}"));
        assert_eq!(read("\"to\" to 00*2 01"), append(b"to", &[0, 0, 1]));
        assert_eq!(read("- to -"), append(&[], &[]));
        let start = Call::StartDeviceFile {
            room: 12,
            magic: 0x7063_6900,
            version: 0xffff_ffff,
            flags: 0,
        };
        let line = "start-device-file 12 0x70636900 4294967295 0";
        assert_eq!(call(line), start);
        let n = u64::MAX;
        let record = Call::ReadDeviceRecord { n, file: vec![7] };
        assert_eq!(call("read-device-record 0xffffffffffffffff 07"), record);
    }

    #[test]
    fn faults_of_requests_by_name() {
        let cases = [
            ("request card 107 -", 9),
            ("request device map", 16),
            ("request 2 map", 11),
            ("request container map flags=0x100000000", 23),
            ("request container map flags", 23),
            ("request container map flags=1 flags=1", 31),
            ("request container unmap memory=0", 25),
            ("request container set-iommu argsz=4", 29),
            ("request device set-iommu number=1", 16),
            ("request device info room=1048577", 21),
            ("request device info data", 21),
            ("request device set-irqs data", 29),
            ("request device set-irqs data 0g", 30),
            ("request device set-irqs data 00 count=1", 33),
            ("request device set-irqs size=1", 25),
            ("show-line 1", 12),
            ("show-line 1 0 0", 15),
            ("walk-queue 0", 13),
            ("walk-queue 0 65536", 14),
            ("walk-queue 0 0 room", 20),
            ("walk-queue 0 0 room 1048577", 21),
            ("walk-queue 0 0 6", 16),
            ("walk-queue 0 0 room 6 6", 23),
            ("read-device-file", 17),
            ("read-device-record 0", 21),
            ("start-device-file 12 0x100000000 0 0", 22),
            ("start-device-file 12 0 0", 25),
            ("append-device-record 64 2 00", 29),
            ("append-device-record 64 2 to 00", 27),
            ("append-device-record 64 2 00 to", 32),
            ("append-device-record 64 2 0g to 00", 27),
            ("append-device-record 64 2 00 to 00 to", 36),
            ("append-device-record 64", 24),
            ("append-device-record 1048577 2 00 to 00", 22),
            ("request device", 15),
            ("request", 8),
            ("set-register", 13),
        ];
        for (line, column) in cases {
            let file = format!("memory 0\n{line}");
            assert_eq!(faults(&file), [(2, column)], "{line}");
        }
    }

    #[test]
    fn memory_comes_first_and_once() {
        assert_eq!(faults(""), [(1, 1)]);
        assert_eq!(faults("# nothing\n"), [(1, 1)]);
        assert_eq!(faults("\n  stop\nstart\nmemory 0"), [(2, 3), (4, 1)]);
        assert_eq!(faults("memory 0\n memory 0"), [(2, 2)]);
        assert_eq!(faults("memory 1073741825"), [(1, 8)]);
        assert_eq!(faults("memory 0 garbage 256"), [(1, 18)]);
        assert_eq!(faults("memory 0 garbage"), [(1, 17)]);
        assert_eq!(faults("memory 0 0xa5"), [(1, 10)]);
        assert_eq!(faults("memory 0 => ok 0"), [(1, 10)]);
    }

    #[test]
    fn all_faults_of_a_file_are_found() {
        let file = "memory 0\ncard-read x y\nstopp\nstop now\nstop =>\n=> ok 0\n\"stop\"\n";
        let expected = [(2, 11), (2, 13), (3, 1), (4, 6), (5, 6), (6, 1), (7, 1)];
        assert_eq!(faults(file), expected);
        let file = b"memory 0\nstop # \xc3\xa9 \xff\nhost-load 0 1048577";
        let found = read(file).unwrap_err();
        assert_eq!((found[0].line, found[0].column), (2, 10));
        assert_eq!((found[1].line, found[1].column), (3, 13));
        assert_eq!(found.len(), 2);
    }

    #[test]
    fn an_expectation_is_kept_with_its_line() {
        let session = read(b"memory 0\n\nstop =>  ok   0 # as ever\nstart").unwrap();
        assert_eq!(session.lines[0].number, 3);
        assert_eq!(session.lines[0].expected, Some("ok 0".to_string()));
        assert_eq!(session.lines[1].number, 4);
        assert_eq!(session.lines[1].expected, None);
    }
}
