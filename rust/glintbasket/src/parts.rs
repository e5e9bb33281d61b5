//! The walker over a stream of parts.

use crate::error::{Error, Result};
use crate::raw;
use std::iter::FusedIterator;

/// Bytes of a part before its value.
pub const PART_HEADER: usize = 16;

/// A part of a stream.
#[derive(Clone, Copy, Debug, PartialEq, Eq, Hash)]
pub struct Part<'s> {
    /// Its type (see [`kind`](crate::kind)).
    pub kind: u16,
    /// 1: a loader that does not know the type may skip it.
    pub flags: u8,
    /// All eight bytes of the selector, as one number.
    pub selector: u64,
    /// Its value: that stretch of the stream.
    pub value: &'s [u8],
    /// The place of the next part.
    pub next: usize,
}

/// A walker that keeps hold of a stream and its place, and hands out part after part.
///
/// A step looks at the part's header and at the stream's length; whether a device would load the part, [`Bench::load_parts`] says.
/// As an iterator it ends after the last part or after the first refusal. [`Parts::step`] never ends: at the end, and after a refusal,
/// the place stays, and a further step answers the same.
///
/// [`Bench::load_parts`]: crate::Bench::load_parts
#[derive(Clone, Debug)]
pub struct Parts<'s> {
    stream: &'s [u8],
    place: usize,
    refused: bool,
}

impl<'s> Parts<'s> {
    /// A walker at the stream's start.
    pub fn new(stream: &'s [u8]) -> Parts<'s> {
        Parts::at(stream, 0)
    }

    /// A walker at a place. One past the stream's end is refused by the first step.
    pub fn at(stream: &'s [u8], place: usize) -> Parts<'s> {
        Parts {
            stream,
            place,
            refused: false,
        }
    }

    /// Where the next step starts.
    pub fn place(&self) -> usize {
        self.place
    }

    /// One step: a part, or `None` at the end.
    ///
    /// Refused, with the step's place: `Truncated`, `Header`.
    pub fn step(&mut self) -> Result<Option<Part<'s>>> {
        let step = raw::step(self.stream, self.place);
        if step.refused {
            self.refused = true;
            return Err(Error::from_code(step.code, step.place));
        }
        if step.end {
            return Ok(None);
        }
        let value = &self.stream[step.value_start..][..step.value_length];
        self.place = step.next;
        Ok(Some(Part {
            kind: step.kind,
            flags: step.flags,
            selector: step.selector,
            value,
            next: step.next,
        }))
    }
}

impl<'s> Iterator for Parts<'s> {
    type Item = Result<Part<'s>>;

    fn next(&mut self) -> Option<Result<Part<'s>>> {
        if self.refused {
            return None;
        }
        self.step().transpose()
    }
}

impl FusedIterator for Parts<'_> {}
