//! What a call answered, and how it is printed.

use glintbasket::device_file::Header;
use glintbasket::{Buffer, Error, Line, Location, LookUpError, SaveCheck, Walk};
use std::fmt;

/// What a call answered.
#[derive(Clone, Debug, PartialEq)]
pub enum Answer {
    Done(u64),
    /// Success of a call that writes to its buffer.
    Filled(u64, Vec<u8>),
    LookedUp(Result<Location, LookUpError>),
    Shown(Line),
    Walked(Walk),
    Part {
        kind: u16,
        flags: u8,
        selector: u64,
        next: usize,
        value: Vec<u8>,
    },
    End,
    Checked(SaveCheck),
    /// A device file's header, and how many records it has.
    FileRead(Header, u64),
    Record {
        kind: u32,
        start: usize,
        content: Vec<u8>,
    },
    /// The bytes in use of a device file that was written.
    FileWritten(Vec<u8>),
    Refused(Error),
}

impl fmt::Display for Answer {
    fn fmt(&self, f: &mut fmt::Formatter<'_>) -> fmt::Result {
        match self {
            Answer::Done(result) => write!(f, "ok {result}"),
            Answer::Filled(result, bytes) => write!(f, "ok {result} : {}", Pairs(bytes)),
            Answer::LookedUp(Ok(location)) => {
                let (address, rights) = (location.address.0, location.rights.0);
                let (left, probes) = (location.left, location.probes);
                write!(
                    f,
                    "ok {address} rights {rights} left {left} probes {probes}"
                )
            }
            Answer::LookedUp(Err(error)) => {
                write!(f, "{}", Answer::Refused((*error).into()))?;
                match error.probes {
                    Some(probes) => write!(f, " probes {probes}"),
                    None => Ok(()),
                }
            }
            Answer::Shown(line) => {
                let (masked, pending) = (yes_or_no(line.masked), yes_or_no(line.pending));
                write!(f, "ok number {} ", number(line))?;
                write!(f, "masked {masked} pending {pending} tally {}", line.tally)
            }
            Answer::Walked(Walk { buffers, index }) => {
                write!(f, "ok {} index {index} : {}", buffers.len(), List(buffers))
            }
            Answer::Part {
                kind,
                flags,
                selector,
                next,
                value,
            } => {
                write!(f, "part {kind:#x} flags {flags} selector {selector} ")?;
                write!(f, "next {next} : {}", Pairs(value))
            }
            Answer::End => write!(f, "end"),
            Answer::Checked(SaveCheck::Save) => write!(f, "save"),
            Answer::Checked(SaveCheck::DiffersAt(place)) => write!(f, "differs at {place}"),
            Answer::FileRead(header, records) => {
                write!(f, "ok {records} magic {:#x} ", header.magic)?;
                write!(f, "version {} flags {}", header.version, header.flags)
            }
            Answer::Record {
                kind,
                start,
                content,
            } => write!(f, "record {kind} start {start} : {}", Pairs(content)),
            Answer::FileWritten(bytes) => {
                write!(f, "ok 0 used {} : {}", bytes.len(), Pairs(bytes))
            }
            Answer::Refused(error) => {
                let (refusal, place) = (error.refusal, error.place);
                write!(
                    f,
                    "refused {} {} at {place}",
                    refusal.number(),
                    refusal.name()
                )
            }
        }
    }
}

/// A line's event number, -1 where it has none.
fn number(line: &Line) -> i64 {
    line.event.map_or(-1, i64::from)
}

fn yes_or_no(flag: bool) -> &'static str {
    if flag {
        "yes"
    } else {
        "no"
    }
}

/// Buffers with a comma between them, and `-` where there are none.
struct List<'b>(&'b [Buffer]);

impl fmt::Display for List<'_> {
    fn fmt(&self, f: &mut fmt::Formatter<'_>) -> fmt::Result {
        if self.0.is_empty() {
            return write!(f, "-");
        }
        for (place, buffer) in self.0.iter().enumerate() {
            let comma = if place > 0 { ", " } else { "" };
            let (address, length) = (buffer.address.0, buffer.length);
            write!(f, "{comma}{address} length {length} flags {}", buffer.flags)?;
        }
        Ok(())
    }
}

/// Bytes as pairs of hexadecimal digits with a space between them, and `-` where there are none.
struct Pairs<'b>(&'b [u8]);

impl fmt::Display for Pairs<'_> {
    fn fmt(&self, f: &mut fmt::Formatter<'_>) -> fmt::Result {
        let Some((first, rest)) = self.0.split_first() else {
            return write!(f, "-");
        };
        write!(f, "{first:02x}")?;
        rest.iter().try_for_each(|byte| write!(f, " {byte:02x}"))
    }
}

#[cfg(test)]
mod tests {
    use super::*;
    use glintbasket::{DeviceAddress, MemoryAddress, Refusal, Rights};

    #[test]
    fn successes_are_printed() {
        assert_eq!(Answer::Done(0).to_string(), "ok 0");
        assert_eq!(
            Answer::Done(u64::MAX).to_string(),
            "ok 18446744073709551615"
        );
        assert_eq!(Answer::Filled(2, vec![0, 0xab]).to_string(), "ok 2 : 00 ab");
        assert_eq!(Answer::Filled(0, vec![]).to_string(), "ok 0 : -");
    }

    #[test]
    fn a_location_is_decimal() {
        let location = Location {
            address: MemoryAddress(0x1010),
            rights: Rights(3),
            left: 0xff0,
            probes: 0xc,
        };
        let text = "ok 4112 rights 3 left 4080 probes 12";
        assert_eq!(Answer::LookedUp(Ok(location)).to_string(), text);
    }

    #[test]
    fn a_refused_look_up_has_probes_if_it_looked() {
        let refused = |refusal, probes| {
            let place = 0;
            let error = LookUpError {
                refusal,
                place,
                probes,
            };
            Answer::LookedUp(Err(error)).to_string()
        };
        let unmapped = refused(Refusal::Unmapped, Some(12));
        assert_eq!(unmapped, "refused 14 Unmapped at 0 probes 12");
        assert_eq!(refused(Refusal::Range, None), "refused 9 Range at 0");
    }

    #[test]
    fn a_line_has_number_flags_and_tally() {
        let line = Line {
            event: Some(7),
            masked: true,
            pending: false,
            tally: u32::MAX,
        };
        let text = "ok number 7 masked yes pending no tally 4294967295";
        assert_eq!(Answer::Shown(line).to_string(), text);
        let text = "ok number -1 masked no pending no tally 0";
        assert_eq!(Answer::Shown(Line::DISABLED).to_string(), text);
    }

    #[test]
    fn a_walk_has_its_index_and_every_buffer() {
        let buffer = |address, length, flags| Buffer {
            address: DeviceAddress(address),
            length,
            flags,
        };
        let walked = |buffers| {
            let walk = Walk {
                buffers,
                index: 65535,
            };
            Answer::Walked(walk).to_string()
        };
        assert_eq!(walked(vec![]), "ok 0 index 65535 : -");
        let text = "ok 2 index 65535 : 4096 length 16 flags 1, 0 length 4294967295 flags 65530";
        let buffers = vec![buffer(4096, 16, 1), buffer(0, u32::MAX, 0xfffa)];
        assert_eq!(walked(buffers), text);
    }

    #[test]
    fn a_step_is_printed() {
        let part = Answer::Part {
            kind: 0x3,
            flags: 1,
            selector: 16,
            next: 17,
            value: vec![0x0f],
        };
        let text = "part 0x3 flags 1 selector 16 next 17 : 0f";
        assert_eq!(part.to_string(), text);
        assert_eq!(Answer::End.to_string(), "end");
    }

    #[test]
    fn a_device_file_is_printed() {
        let header = Header {
            magic: 0x7063_6900,
            version: 1,
            flags: u32::MAX,
        };
        let text = "ok 12 magic 0x70636900 version 1 flags 4294967295";
        assert_eq!(Answer::FileRead(header, 12).to_string(), text);
        let record = |content| Answer::Record {
            kind: 2,
            start: 40,
            content,
        };
        let text = "record 2 start 40 : 2f ff";
        assert_eq!(record(vec![0x2f, 0xff]).to_string(), text);
        assert_eq!(record(vec![]).to_string(), "record 2 start 40 : -");
        let written = Answer::FileWritten(vec![0, 0x69]);
        assert_eq!(written.to_string(), "ok 0 used 2 : 00 69");
    }

    #[test]
    fn a_refusal_has_number_name_and_place() {
        let error = Error {
            refusal: Refusal::Unwritten,
            place: 1,
        };
        let text = Answer::Refused(error).to_string();
        assert_eq!(text, "refused 16 Unwritten at 1");
    }
}
