//! Says in words what is found of a stream that may be a save.

use glintbasket::{check_save, kind, Card, SaveCheck, PART_HEADER};
use std::fmt;

/// What is found of a stream.
#[derive(Clone, Debug, PartialEq)]
pub enum Finding {
    Save,
    /// A byte that no save has at its place.
    Byte {
        byte: u8,
        place: Place,
    },
    /// An end where every save goes on.
    End(Place),
}

/// A place in a stream, all before which is the beginning of a save.
#[derive(Clone, Debug, PartialEq)]
pub struct Place {
    at: usize,
    /// Where its part starts.
    part: usize,
    /// Which field of the part it lies in, of which register if that is known.
    field: &'static str,
    register: Option<String>,
}

impl Finding {
    pub fn of(card: Card, stream: &[u8]) -> Finding {
        match check_save(card, stream) {
            SaveCheck::Save => Finding::Save,
            SaveCheck::DiffersAt(at) => {
                let place = Place::of(&stream[..at]);
                match stream.get(at) {
                    Some(&byte) => Finding::Byte { byte, place },
                    None => Finding::End(place),
                }
            }
        }
    }

    pub fn is_save(&self) -> bool {
        *self == Finding::Save
    }
}

impl Place {
    /// The place behind the beginning of a save.
    fn of(beginning: &[u8]) -> Place {
        let at = beginning.len();
        let mut part = 0;
        while let Some(next) = next_part(beginning, part) {
            part = next;
        }
        let header = &beginning[part..];
        // The types differ in their low byte, which is all that is known of one that is cut short.
        let kind = header.first().map(|&low| 0x100 | u64::from(low));
        let selector = header.get(4..12).map(number);
        let field = match (at - part, kind) {
            (0 | 1, _) => "the type",
            (2, _) => "the flags",
            (3, _) => "the reserved byte",
            (4..12, _) => "the selector",
            (12..PART_HEADER, _) => "the length",
            (offset, Some(kind::QUEUE_CONFIG)) => queue_field(offset - PART_HEADER),
            (offset, Some(kind::NOTIFY_CONFIG)) if offset >= PART_HEADER + 4 => {
                "the reserved bytes"
            }
            _ => "the value",
        };
        Place {
            at,
            part,
            field,
            register: kind.and_then(|kind| register(kind, selector)),
        }
    }
}

/// The place behind the part at a place, if all of it is there.
fn next_part(stream: &[u8], part: usize) -> Option<usize> {
    let length = stream.get(part + 12..part + PART_HEADER).map(number)?;
    let next = part + PART_HEADER + length as usize;
    (next <= stream.len()).then_some(next)
}

/// A number of up to 8 bytes.
fn number(bytes: &[u8]) -> u64 {
    bytes
        .iter()
        .rev()
        .fold(0, |number, &byte| number << 8 | u64::from(byte))
}

fn register(kind: u64, selector: Option<u64>) -> Option<String> {
    let (name, numbered) = match kind {
        kind::OFFERED_FEATURES => ("offered features", false),
        kind::DRIVER_FEATURES => ("driver features", false),
        kind::COMMON_FIELD => ("common field", true),
        kind::DEVICE_STATUS => ("status", false),
        kind::QUEUE_CONFIG => ("queue", true),
        kind::NOTIFY_CONFIG => ("notify value", true),
        _ => return None,
    };
    Some(match selector {
        Some(selector) if numbered => format!("{name} {selector}"),
        _ if numbered => format!("a {name}"),
        _ => name.to_string(),
    })
}

fn queue_field(offset: usize) -> &'static str {
    match offset {
        0..2 => "size",
        2..4 => "vector",
        4..6 => "enabled",
        6..8 => "reserved",
        8..16 => "the descriptors' address",
        16..24 => "the driver area's address",
        _ => "the device area's address",
    }
}

impl fmt::Display for Place {
    fn fmt(&self, f: &mut fmt::Formatter<'_>) -> fmt::Result {
        write!(f, "{}", self.field)?;
        if let Some(register) = &self.register {
            write!(f, " of {register}")?;
        }
        write!(f, ", in the part at {}", self.part)
    }
}

impl fmt::Display for Finding {
    fn fmt(&self, f: &mut fmt::Formatter<'_>) -> fmt::Result {
        match self {
            Finding::Save => write!(f, "save"),
            Finding::Byte { byte, place } => {
                let at = place.at;
                write!(f, "no save: byte {at} is {byte:#04x}, ")?;
                write!(f, "which no save has there: {place}")
            }
            Finding::End(place) => {
                let at = place.at;
                write!(f, "no save: it ends after {at} bytes, ")?;
                write!(f, "where every save goes on: {place}")
            }
        }
    }
}

#[cfg(test)]
mod tests {
    use super::*;

    /// Offered features and status.
    const RESET: [u8; 41] = [
        0x00, 0x01, 1, 0, 0, 0, 0, 0, 0, 0, 0, 0, 8, 0, 0, 0, 0, 0, 0, 0x30, 1, 0, 0, 0, //
        0x03, 0x01, 0, 0, 0, 0, 0, 0, 0, 0, 0, 0, 1, 0, 0, 0, 0,
    ];

    fn said(stream: &[u8]) -> String {
        Finding::of(Card::Features64, stream).to_string()
    }

    #[test]
    fn a_save_is_one() {
        assert_eq!(said(&RESET), "save");
        assert!(Finding::of(Card::Features64, &RESET).is_save());
    }

    #[test]
    fn an_end_is_told() {
        assert_eq!(
            said(&[]),
            "no save: it ends after 0 bytes, where every save goes on: the type, in the part at 0"
        );
        assert_eq!(
            said(&RESET[..40]),
            "no save: it ends after 40 bytes, where every save goes on: the value of status, in the part at 24"
        );
    }

    #[test]
    fn a_byte_is_told_with_its_part_and_field() {
        let queue = |changes: &[(usize, u8)]| {
            let mut part = [0; 48];
            part[..16].copy_from_slice(&[4, 1, 0, 0, 2, 0, 0, 0, 0, 0, 0, 0, 32, 0, 0, 0]);
            for &(at, byte) in changes {
                part[at] = byte;
            }
            said(&[&RESET[..], &part].concat())
        };
        assert_eq!(queue(&[]), "save");
        let no = |at: usize, byte: u8, what: &str| {
            format!("no save: byte {at} is {byte:#04x}, which no save has there: {what}, in the part at 41")
        };
        assert_eq!(queue(&[(0, 9)]), no(41, 9, "the type"));
        assert_eq!(queue(&[(1, 2)]), no(42, 2, "the type of a queue"));
        assert_eq!(queue(&[(2, 1)]), no(43, 1, "the flags of a queue"));
        assert_eq!(queue(&[(3, 7)]), no(44, 7, "the reserved byte of a queue"));
        assert_eq!(queue(&[(4, 4)]), no(45, 4, "the selector of a queue"));
        assert_eq!(queue(&[(12, 31)]), no(53, 31, "the length of queue 2"));
        assert_eq!(queue(&[(16, 3)]), no(57, 3, "size of queue 2"));
        assert_eq!(queue(&[(20, 1)]), no(61, 1, "enabled of queue 2"));
        assert_eq!(queue(&[(22, 1)]), no(63, 1, "reserved of queue 2"));
        assert_eq!(
            queue(&[(40, 2)]),
            no(81, 2, "the device area's address of queue 2")
        );
    }

    #[test]
    fn bytes_behind_a_save_are_told() {
        let stream = [&RESET[..], &[3]].concat();
        assert_eq!(
            said(&stream),
            "no save: byte 41 is 0x03, which no save has there: the type, in the part at 41"
        );
    }
}
