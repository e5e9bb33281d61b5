//! A session file: read as a whole and judged before anything is played. docs/session-format.md is the format.

mod bytes;
mod call;
mod number;
mod request;
mod text;
mod words;

pub use bytes::Pattern;
pub use call::Call;
pub use number::byte;
pub use request::output_size;
pub use text::read as read_text;

use glintbasket::{Card, DEFAULT_RECORDS, RECORDS_LIMIT};
use number::Number;
use std::fmt;
use words::{Line, Words};

/// Memory has at most so many bytes.
const MEMORY_MAX: u64 = 1 << 30;
/// Each byte of memory and of buffers starts as this, unless the file says otherwise.
const GARBAGE: u8 = 0xa5;

/// A session that has no fault.
#[derive(Debug, PartialEq)]
pub struct Session {
    pub memory_size: usize,
    pub garbage: u8,
    pub card: Card,
    /// How many mappings there is room for.
    pub records: usize,
    pub steps: Vec<Step>,
}

/// One call, and the text that it is expected to print.
#[derive(Debug, PartialEq)]
pub struct Step {
    pub line: usize,
    pub call: Call,
    pub expected: Option<String>,
}

/// What is wrong with a file, and where: lines count from 1, and columns count characters from 1.
#[derive(Clone, Debug, PartialEq, Eq)]
pub struct Fault {
    pub line: usize,
    pub column: usize,
    pub message: String,
}

impl fmt::Display for Fault {
    fn fmt(&self, f: &mut fmt::Formatter<'_>) -> fmt::Result {
        write!(f, "{}:{}: {}", self.line, self.column, self.message)
    }
}

/// Reads a file's bytes as a session, or gives all of its faults by rising line and column.
pub fn read(file: &[u8]) -> Result<Session, Vec<Fault>> {
    let mut reader = Reader::default();
    let text = file.strip_suffix(b"\n").unwrap_or(file);
    for (index, line) in text.split(|&byte| byte == b'\n').enumerate() {
        reader.line(index + 1, line);
    }
    reader.finish()
}

/// What the lines read so far say.
#[derive(Default)]
struct Reader {
    memory: Option<MemoryLine>,
    calls_seen: bool,
    /// Whether a line is not UTF-8: it might have been the `memory` line.
    unreadable: bool,
    steps: Vec<Step>,
    faults: Vec<Fault>,
}

/// The `memory` line: what it says, as far as it has no fault.
struct MemoryLine {
    line: usize,
    size: u64,
    garbage: u8,
    card: Card,
    records: usize,
}

impl Reader {
    fn line(&mut self, number: usize, bytes: &[u8]) {
        match std::str::from_utf8(bytes) {
            Ok(text) => {
                let mut line = Line::read(text);
                let found = line.faults.len();
                self.words(number, &mut Words::new(&mut line));
                if line.torn {
                    line.faults.truncate(found);
                }
                self.take_faults(number, line.faults);
            }
            Err(error) => self.not_utf8(number, bytes, error.valid_up_to()),
        }
    }

    fn words(&mut self, number: usize, words: &mut Words) {
        match words.first() {
            Some(first) if first.is("memory") => self.memory_line(number, words),
            Some(_) => self.call_line(number, words),
            None => (),
        }
    }

    /// A line of which only a start is UTF-8. It is judged no further: the rest would give rise to faults that are none.
    fn not_utf8(&mut self, number: usize, bytes: &[u8], valid: usize) {
        let start = String::from_utf8_lossy(&bytes[..valid]);
        let mut line = Line::read(&start);
        self.words(number, &mut Words::new(&mut line));
        self.unreadable = true;
        let message = format!("byte 0x{:02x} is not UTF-8", bytes[valid]);
        self.take_faults(number, vec![(start.chars().count() + 1, message)]);
    }

    fn memory_line(&mut self, line: usize, words: &mut Words) {
        words.next();
        if let Some(earlier) = &self.memory {
            let message = format!("memory is given twice; line {} gave it", earlier.line);
            return words.fault_at_first(message);
        }
        if self.calls_seen {
            let message = "`memory` stands behind a call; it must come before all calls";
            words.fault_at_first(message.to_string());
        }
        let size = words.number(&Number::up_to("SIZE", MEMORY_MAX));
        let garbage = garbage(words);
        let card = card(words);
        let records = records(words);
        words.finish("`memory SIZE [garbage BYTE] [card CARD] [mappings N]`");
        words.no_expectation();
        self.memory = Some(MemoryLine {
            line,
            size: size.unwrap_or(0),
            garbage: garbage.unwrap_or(GARBAGE),
            card: card.unwrap_or_default(),
            records: records.unwrap_or(DEFAULT_RECORDS),
        });
    }

    fn call_line(&mut self, line: usize, words: &mut Words) {
        self.calls_seen = true;
        let call = call::read(words);
        let expected = words.expectation();
        if let Some(call) = call {
            self.steps.push(Step {
                line,
                call,
                expected,
            });
        }
    }

    fn take_faults(&mut self, number: usize, mut faults: Vec<(usize, String)>) {
        faults.sort_by_key(|&(column, _)| column);
        self.faults
            .extend(faults.into_iter().map(|(column, message)| Fault {
                line: number,
                column,
                message,
            }));
    }

    fn finish(mut self) -> Result<Session, Vec<Fault>> {
        if self.memory.is_none() && !self.unreadable {
            let message = "there is no `memory SIZE` line; it must come before all calls";
            let fault = Fault {
                line: 1,
                column: 1,
                message: message.to_string(),
            };
            self.faults.insert(0, fault);
        }
        match self.memory {
            Some(memory) if self.faults.is_empty() => Ok(Session {
                memory_size: memory.size as usize,
                garbage: memory.garbage,
                card: memory.card,
                records: memory.records,
                steps: self.steps,
            }),
            _ => Err(self.faults),
        }
    }
}

/// `card 64` or `card 128`, if it is there: a card by the number of its feature bits.
fn card(words: &mut Words) -> Option<Card> {
    if !words.peek()?.is("card") {
        return None;
    }
    words.next();
    let Some(word) = words.next() else {
        words.missing("CARD");
        return None;
    };
    match word.plain() {
        Some("64") => Some(Card::Features64),
        Some("128") => Some(Card::Features128),
        _ => {
            let message = "a card is 64 or 128, by the number of its feature bits";
            words.fault(word.column, message.to_string());
            None
        }
    }
}

/// `garbage BYTE` on a `memory` line, if it is there.
fn garbage(words: &mut Words) -> Option<u8> {
    named(words, "garbage", &Number::up_to("BYTE", 255)).map(|byte| byte as u8)
}

/// `mappings N` there.
fn records(words: &mut Words) -> Option<usize> {
    let number = Number::up_to("N", RECORDS_LIMIT as u64);
    named(words, "mappings", &number).map(|count| count as usize)
}

/// A number behind a word that may be left out with it.
fn named(words: &mut Words, name: &str, number: &Number) -> Option<u64> {
    if !words.peek()?.is(name) {
        return None;
    }
    words.next();
    words.number(number)
}

#[cfg(test)]
mod tests;
