//! The requests that can be called by name, and what each of them prints.

use super::bytes::{Pattern, BYTES_MAX};
use super::number::Number;
use super::words::{quoted, Word, Words};
use super::Call;

const CONTAINER: u64 = 0;
const DEVICE: u64 = 1;

/// A listed request.
struct Listed {
    target: u64,
    name: &'static str,
    number: u64,
    size: usize,
    /// Whether it gives output fields, so that its buffer is printed.
    output: bool,
    /// Whether data may follow its fields.
    data: bool,
    fields: &'static [Field],
}

/// An input field of a request.
struct Field {
    name: &'static str,
    offset: usize,
    width: usize,
}

const fn field(name: &'static str, offset: usize, width: usize) -> Field {
    Field {
        name,
        offset,
        width,
    }
}

/// One without output fields and data.
const fn listed(
    target: u64,
    name: &'static str,
    number: u64,
    size: usize,
    fields: &'static [Field],
) -> Listed {
    Listed {
        target,
        name,
        number,
        size,
        output: false,
        data: false,
        fields,
    }
}

impl Listed {
    const fn with_output(self) -> Listed {
        Listed {
            output: true,
            ..self
        }
    }

    const fn with_data(self) -> Listed {
        Listed { data: true, ..self }
    }
}

const ARGSZ: Field = field("argsz", 0, 4);
const FLAGS: Field = field("flags", 4, 4);
const INDEX: Field = field("index", 8, 4);
const NUMBER: Field = field("number", 0, 4);

const MAP: &[Field] = &[
    ARGSZ,
    FLAGS,
    field("memory", 8, 8),
    field("device", 16, 8),
    field("size", 24, 8),
];
const UNMAP: &[Field] = &[ARGSZ, FLAGS, field("device", 8, 8), field("size", 16, 8)];

const SET_IRQS: &[Field] = &[
    ARGSZ,
    FLAGS,
    INDEX,
    field("start", 12, 4),
    field("count", 16, 4),
];

const LISTED: [Listed; 11] = [
    listed(CONTAINER, "api-version", 100, 0, &[]),
    listed(CONTAINER, "check-extension", 101, 4, &[NUMBER]),
    listed(CONTAINER, "set-iommu", 102, 4, &[NUMBER]),
    listed(CONTAINER, "iommu-info", 112, 16, &[ARGSZ]).with_output(),
    listed(CONTAINER, "map", 113, 32, MAP),
    listed(CONTAINER, "unmap", 114, 24, UNMAP).with_output(),
    listed(DEVICE, "info", 107, 16, &[ARGSZ]).with_output(),
    listed(DEVICE, "region-info", 108, 32, &[ARGSZ, INDEX]).with_output(),
    listed(DEVICE, "irq-info", 109, 16, &[ARGSZ, INDEX]).with_output(),
    listed(DEVICE, "set-irqs", 110, 20, SET_IRQS).with_data(),
    listed(DEVICE, "reset", 111, 0, &[]),
];

/// How many of the buffer's first bytes an accepted request prints, if it prints them at all.
pub fn output_size(target: u64, number: u64) -> Option<usize> {
    LISTED
        .iter()
        .find(|listed| listed.target == target && listed.number == number && listed.output)
        .map(|listed| listed.size)
}

/// A request, from behind its first word on.
pub fn read(words: &mut Words) -> Option<Call> {
    let target = target(words);
    let Some(word) = words.peek().cloned() else {
        words.missing("the request's NUMBER or NAME");
        return None;
    };
    // A name starts with no digit.
    let named = word
        .plain()
        .is_some_and(|text| !text.starts_with(|c: char| c.is_ascii_digit()));
    if named {
        words.next();
        return by_name(target, &word, words);
    }
    let number = words.number(&Number::any("the request's NUMBER"));
    let buffer = super::bytes::read(words, super::bytes::Stale::Allowed);
    Some(Call::Request {
        target: target?,
        number: number?,
        buffer,
    })
}

fn target(words: &mut Words) -> Option<u64> {
    let name = "TARGET (`container`, `device` or a number)";
    match words.peek()?.plain() {
        Some("container") => words.next().map(|_| CONTAINER),
        Some("device") => words.next().map(|_| DEVICE),
        _ => words.number(&Number::any(name)),
    }
}

/// The request of a name. Without a target, fields cannot be judged: its fault is noted already.
fn by_name(target: Option<u64>, word: &Word, words: &mut Words) -> Option<Call> {
    let Some((target, name)) = target.zip(word.plain()) else {
        words.skip();
        return None;
    };
    let found = LISTED
        .iter()
        .find(|listed| listed.target == target && listed.name == name);
    let Some(listed) = found else {
        words.fault(word.column, no_such_name(target, name));
        words.skip();
        return None;
    };
    let mut fields = Fields::new(listed);
    while let Some(word) = words.next() {
        if listed.data && word.is("data") {
            fields.data = super::bytes::read(words, super::bytes::Stale::Allowed);
            break;
        }
        if let Err((column, message)) = fields.set(&word) {
            words.fault(column, message);
        }
    }
    Some(Call::Request {
        target,
        number: listed.number,
        buffer: fields.buffer(),
    })
}

fn no_such_name(target: u64, name: &str) -> String {
    let names: Vec<&str> = LISTED
        .iter()
        .filter(|listed| listed.target == target)
        .map(|listed| listed.name)
        .collect();
    if names.is_empty() {
        return format!("target {target} has no request by name; `container` and `device` have");
    }
    let (name, names) = (quoted(name), names.join(", "));
    format!("{name} is no request of this target; its requests are {names}, or a number")
}

/// The fields of a named request as far as its line gives them.
struct Fields {
    listed: &'static Listed,
    values: Vec<Option<u64>>,
    data: Pattern,
    room: Option<u64>,
}

impl Fields {
    fn new(listed: &'static Listed) -> Fields {
        Fields {
            listed,
            values: vec![None; listed.fields.len()],
            data: Pattern::default(),
            room: None,
        }
    }

    /// Takes a word `FIELD=NUMBER`; a fault is a column and a message.
    fn set(&mut self, word: &Word) -> Result<(), (usize, String)> {
        let text = word.plain().unwrap_or("\"..\"");
        let Some((name, value)) = text.split_once('=') else {
            return Err((word.column, self.no_such_field(text)));
        };
        let index = self.listed.fields.iter().position(|f| f.name == name);
        let (slot, wanted) = match (name, index) {
            ("room", _) => (&mut self.room, Number::up_to("room", BYTES_MAX)),
            (_, Some(index)) => (&mut self.values[index], self.listed.fields[index].number()),
            _ => return Err((word.column, self.no_such_field(name))),
        };
        if slot.is_some() {
            return Err((word.column, format!("`{name}` is given twice")));
        }
        let column = word.column + name.chars().count() + 1;
        // A faulty value still counts as given.
        *slot = Some(0);
        *slot = Some(wanted.read(value).map_err(|message| (column, message))?);
        Ok(())
    }

    fn no_such_field(&self, name: &str) -> String {
        let mut names: Vec<&str> = self.listed.fields.iter().map(|f| f.name).collect();
        names.push("room");
        let names = names.join("=, ");
        let data = if self.listed.data {
            " and `data BYTES`"
        } else {
            ""
        };
        format!(
            "{} is no field of {}; it takes {names}={data}",
            quoted(name),
            self.listed.name
        )
    }

    /// The request's size, with its data.
    fn size(&self) -> usize {
        self.listed.size + self.data.count()
    }

    /// The buffer: the fields and the data, cut off where it ends, and all other bytes stale.
    fn buffer(&self) -> Pattern {
        let room = self.room.map_or(self.size(), |room| room as usize);
        let mut pattern = Pattern::default();
        let mut end = 0;
        for (field, value) in self.listed.fields.iter().zip(&self.values) {
            pattern.push_stale(field.offset - end);
            end = field.offset + field.width;
            let value = value.unwrap_or(self.default(field)).to_le_bytes();
            pattern.push_given(value[..field.width].to_vec());
        }
        pattern.push_stale(self.listed.size - end);
        pattern.append(self.data.clone());
        pattern.push_stale(room.saturating_sub(self.size()));
        pattern.truncated(room)
    }

    fn default(&self, field: &Field) -> u64 {
        match field.name {
            "argsz" => self.size() as u64,
            _ => 0,
        }
    }
}

impl Field {
    fn number(&self) -> Number {
        let max = match self.width {
            4 => u64::from(u32::MAX),
            _ => u64::MAX,
        };
        Number::up_to(self.name, max)
    }
}
