//! The calls as the static library exports them, for programs that keep the state themselves.
//!
//! A [`Bench`](crate::Bench) keeps the state and turns answers into errors; it stands on these functions and is what most programs
//! want. Here the caller lends everything to each call, in this order: state, records, memory and marks, as far as the call takes them, and
//! then its arguments. Nothing is asked of the caller: any state, any records, any lengths and any numbers get an answer. At most
//! [`RECORDS_LIMIT`](crate::RECORDS_LIMIT) records are taken, and marks are [`marks_len`](crate::marks_len) bytes; other lengths are
//! refused. The records may be others at each call, as long as those in use are as the last call left them.
//!
//! ```
//! use glintbasket::raw::{self, Mapping, State};
//! use glintbasket::{marks_len, Card, MemoryAddress, Refusal};
//!
//! let (mut memory, mut marks) = (vec![0xa5; 4096], vec![0; marks_len(4096)]);
//! let (mut state, records) = (State::default(), [Mapping::default(); 8]);
//! raw::power_on(&mut state, &records, &memory, &mut marks, Card::Features64);
//! raw::host_write(&state, &records, &mut memory, &mut marks, MemoryAddress(0), b"go");
//!
//! let mut command = [0; 3];
//! let outcome = raw::host_read(&state, &records, &memory, &marks, MemoryAddress(0), &mut command);
//! assert!(outcome.refused);
//! assert_eq!(outcome.code, Refusal::Unwritten.number());
//! assert_eq!(outcome.place, 2);
//! ```

// This is the only module with `unsafe`. Why the calls are safe: no function of the library asks anything of its arguments but what
// Rust's types say. A slice gives a pointer that is not null and as many bytes, records or numbers as its length says, also where it has
// none; what is lent as `&mut` overlaps nothing else. All other values may be any. The library keeps no pointer, and writes to nothing that
// is lent as `&`.

mod check_save;
mod device_file;
mod structs;

pub use check_save::{check_save, IS_SAVE};
pub use device_file::{
    append_device_record, read_device_file, read_device_record, start_device_file,
};
pub use structs::{
    DeviceHeader, DeviceRecord, Found, Line, Mapping, Outcome, PartStep, Register, Registers,
    ShownLine, State, Walked, WrittenFile, LINES, REGISTERS, SLOTS,
};

use crate::address::{DeviceAddress, MemoryAddress};
use crate::card::Card;

// As include/glintbasket.h declares them: a slice is a pointer and a length, and an address is its number.
extern "C" {
    fn glint_power_on(
        state: *mut State,
        records: *const Mapping,
        records_length: usize,
        memory: *const u8,
        memory_length: usize,
        marks: *mut u8,
        marks_length: usize,
    ) -> Outcome;
    fn glint_power_on_128(
        state: *mut State,
        records: *const Mapping,
        records_length: usize,
        memory: *const u8,
        memory_length: usize,
        marks: *mut u8,
        marks_length: usize,
    ) -> Outcome;
    fn glint_request(
        state: *mut State,
        records: *mut Mapping,
        records_length: usize,
        memory: *const u8,
        memory_length: usize,
        marks: *const u8,
        marks_length: usize,
        target: u32,
        number: u32,
        buffer: *mut u8,
        buffer_length: usize,
    ) -> Outcome;
    fn glint_look_up(
        state: *const State,
        records: *const Mapping,
        records_length: usize,
        device: DeviceAddress,
    ) -> Found;
    fn glint_show_line(
        state: *const State,
        records: *const Mapping,
        records_length: usize,
        index: u32,
        line: u32,
    ) -> ShownLine;
    fn glint_device_read(
        state: *const State,
        records: *const Mapping,
        records_length: usize,
        memory: *const u8,
        memory_length: usize,
        marks: *const u8,
        marks_length: usize,
        device: DeviceAddress,
        buffer: *mut u8,
        buffer_length: usize,
    ) -> Outcome;
    fn glint_device_write(
        state: *const State,
        records: *const Mapping,
        records_length: usize,
        memory: *mut u8,
        memory_length: usize,
        marks: *mut u8,
        marks_length: usize,
        device: DeviceAddress,
        buffer: *const u8,
        buffer_length: usize,
    ) -> Outcome;
    fn glint_walk_queue(
        state: *const State,
        records: *const Mapping,
        records_length: usize,
        memory: *const u8,
        memory_length: usize,
        marks: *const u8,
        marks_length: usize,
        queue: u32,
        last: u16,
        numbers: *mut u64,
        numbers_length: usize,
    ) -> Walked;
    fn glint_host_write(
        state: *const State,
        records: *const Mapping,
        records_length: usize,
        memory: *mut u8,
        memory_length: usize,
        marks: *mut u8,
        marks_length: usize,
        address: MemoryAddress,
        buffer: *const u8,
        buffer_length: usize,
    ) -> Outcome;
    fn glint_host_read(
        state: *const State,
        records: *const Mapping,
        records_length: usize,
        memory: *const u8,
        memory_length: usize,
        marks: *const u8,
        marks_length: usize,
        address: MemoryAddress,
        buffer: *mut u8,
        buffer_length: usize,
    ) -> Outcome;
    fn glint_invalidate(
        state: *const State,
        records: *const Mapping,
        records_length: usize,
        memory: *const u8,
        memory_length: usize,
        marks: *mut u8,
        marks_length: usize,
        address: MemoryAddress,
        length: u64,
    ) -> Outcome;
    fn glint_set_register(
        state: *mut State,
        records: *const Mapping,
        records_length: usize,
        kind: u64,
        selector: u64,
        value: *const u8,
        value_length: usize,
    ) -> Outcome;
    fn glint_read_register(
        state: *const State,
        records: *const Mapping,
        records_length: usize,
        kind: u64,
        selector: u64,
        buffer: *mut u8,
        buffer_length: usize,
    ) -> Outcome;
    fn glint_load_parts(
        state: *mut State,
        records: *const Mapping,
        records_length: usize,
        stream: *const u8,
        stream_length: usize,
    ) -> Outcome;
    fn glint_save_parts(
        state: *const State,
        records: *const Mapping,
        records_length: usize,
        buffer: *mut u8,
        buffer_length: usize,
    ) -> Outcome;
    fn glint_stop(state: *mut State, records: *const Mapping, records_length: usize) -> Outcome;
    fn glint_start(state: *mut State, records: *const Mapping, records_length: usize) -> Outcome;
    fn glint_step(stream: *const u8, stream_length: usize, place: usize) -> PartStep;
}

/// Fresh start of a card: see [`Bench::power_on_as`](crate::Bench::power_on_as).
#[inline]
pub fn power_on(
    state: &mut State,
    records: &[Mapping],
    memory: &[u8],
    marks: &mut [u8],
    card: Card,
) -> Outcome {
    let exported = match card {
        Card::Features64 => glint_power_on,
        Card::Features128 => glint_power_on_128,
    };
    // SAFETY: the state and the slices are valid for their lengths, and Rust keeps `state` and `marks` apart (see above).
    unsafe {
        exported(
            state,
            records.as_ptr(),
            records.len(),
            memory.as_ptr(),
            memory.len(),
            marks.as_mut_ptr(),
            marks.len(),
        )
    }
}

/// A request, by [target](crate::Target) and [number](crate::number): see [`Bench::request`](crate::Bench::request).
#[inline]
pub fn request(
    state: &mut State,
    records: &mut [Mapping],
    memory: &[u8],
    marks: &[u8],
    target: u32,
    number: u32,
    buffer: &mut [u8],
) -> Outcome {
    // SAFETY: the state and the slices are valid for their lengths, and Rust keeps `state`, `records` and `buffer` apart.
    unsafe {
        glint_request(
            state,
            records.as_mut_ptr(),
            records.len(),
            memory.as_ptr(),
            memory.len(),
            marks.as_ptr(),
            marks.len(),
            target,
            number,
            buffer.as_mut_ptr(),
            buffer.len(),
        )
    }
}

/// Look-up: see [`Bench::look_up`](crate::Bench::look_up).
#[inline]
pub fn look_up(state: &State, records: &[Mapping], device: DeviceAddress) -> Found {
    // SAFETY: the state and the slice are valid for their lengths.
    unsafe { glint_look_up(state, records.as_ptr(), records.len(), device) }
}

/// Shows an interrupt line: see [`Bench::show_line`](crate::Bench::show_line).
#[inline]
pub fn show_line(state: &State, records: &[Mapping], index: u32, line: u32) -> ShownLine {
    // SAFETY: the state and the slice are valid for their lengths.
    unsafe { glint_show_line(state, records.as_ptr(), records.len(), index, line) }
}

/// Card read: see [`Bench::device_read`](crate::Bench::device_read).
#[inline]
pub fn device_read(
    state: &State,
    records: &[Mapping],
    memory: &[u8],
    marks: &[u8],
    device: DeviceAddress,
    buffer: &mut [u8],
) -> Outcome {
    // SAFETY: the state and the slices are valid for their lengths, and Rust keeps `buffer` apart.
    unsafe {
        glint_device_read(
            state,
            records.as_ptr(),
            records.len(),
            memory.as_ptr(),
            memory.len(),
            marks.as_ptr(),
            marks.len(),
            device,
            buffer.as_mut_ptr(),
            buffer.len(),
        )
    }
}

/// Card write: see [`Bench::device_write`](crate::Bench::device_write).
#[inline]
pub fn device_write(
    state: &State,
    records: &[Mapping],
    memory: &mut [u8],
    marks: &mut [u8],
    device: DeviceAddress,
    buffer: &[u8],
) -> Outcome {
    // SAFETY: the state and the slices are valid for their lengths, and Rust keeps `memory` and `marks` apart.
    unsafe {
        glint_device_write(
            state,
            records.as_ptr(),
            records.len(),
            memory.as_mut_ptr(),
            memory.len(),
            marks.as_mut_ptr(),
            marks.len(),
            device,
            buffer.as_ptr(),
            buffer.len(),
        )
    }
}

/// Walks a queue into lent numbers, three for each buffer: see [`Bench::walk_queue_into`](crate::Bench::walk_queue_into).
#[inline]
pub fn walk_queue(
    state: &State,
    records: &[Mapping],
    memory: &[u8],
    marks: &[u8],
    queue: u32,
    last: u16,
    numbers: &mut [u64],
) -> Walked {
    // SAFETY: the state and the slices are valid for their lengths, and Rust keeps `numbers` apart.
    unsafe {
        glint_walk_queue(
            state,
            records.as_ptr(),
            records.len(),
            memory.as_ptr(),
            memory.len(),
            marks.as_ptr(),
            marks.len(),
            queue,
            last,
            numbers.as_mut_ptr(),
            numbers.len(),
        )
    }
}

/// Host store: see [`Bench::host_write`](crate::Bench::host_write).
#[inline]
pub fn host_write(
    state: &State,
    records: &[Mapping],
    memory: &mut [u8],
    marks: &mut [u8],
    address: MemoryAddress,
    buffer: &[u8],
) -> Outcome {
    // SAFETY: the state and the slices are valid for their lengths, and Rust keeps `memory` and `marks` apart.
    unsafe {
        glint_host_write(
            state,
            records.as_ptr(),
            records.len(),
            memory.as_mut_ptr(),
            memory.len(),
            marks.as_mut_ptr(),
            marks.len(),
            address,
            buffer.as_ptr(),
            buffer.len(),
        )
    }
}

/// Host load: see [`Bench::host_read`](crate::Bench::host_read).
#[inline]
pub fn host_read(
    state: &State,
    records: &[Mapping],
    memory: &[u8],
    marks: &[u8],
    address: MemoryAddress,
    buffer: &mut [u8],
) -> Outcome {
    // SAFETY: the state and the slices are valid for their lengths, and Rust keeps `buffer` apart.
    unsafe {
        glint_host_read(
            state,
            records.as_ptr(),
            records.len(),
            memory.as_ptr(),
            memory.len(),
            marks.as_ptr(),
            marks.len(),
            address,
            buffer.as_mut_ptr(),
            buffer.len(),
        )
    }
}

/// Forget: see [`Bench::invalidate`](crate::Bench::invalidate).
#[inline]
pub fn invalidate(
    state: &State,
    records: &[Mapping],
    memory: &[u8],
    marks: &mut [u8],
    address: MemoryAddress,
    length: u64,
) -> Outcome {
    // SAFETY: the state and the slices are valid for their lengths, and Rust keeps `marks` apart.
    unsafe {
        glint_invalidate(
            state,
            records.as_ptr(),
            records.len(),
            memory.as_ptr(),
            memory.len(),
            marks.as_mut_ptr(),
            marks.len(),
            address,
            length,
        )
    }
}

/// Sets a register: see [`Bench::set_register`](crate::Bench::set_register).
#[inline]
pub fn set_register(
    state: &mut State,
    records: &[Mapping],
    kind: u64,
    selector: u64,
    value: &[u8],
) -> Outcome {
    // SAFETY: the state and the slices are valid for their lengths, and Rust keeps `state` apart.
    unsafe {
        glint_set_register(
            state,
            records.as_ptr(),
            records.len(),
            kind,
            selector,
            value.as_ptr(),
            value.len(),
        )
    }
}

/// Reads a register: see [`Bench::read_register`](crate::Bench::read_register).
#[inline]
pub fn read_register(
    state: &State,
    records: &[Mapping],
    kind: u64,
    selector: u64,
    buffer: &mut [u8],
) -> Outcome {
    // SAFETY: the state and the slices are valid for their lengths, and Rust keeps `buffer` apart.
    unsafe {
        glint_read_register(
            state,
            records.as_ptr(),
            records.len(),
            kind,
            selector,
            buffer.as_mut_ptr(),
            buffer.len(),
        )
    }
}

/// Loads a stream of parts: see [`Bench::load_parts`](crate::Bench::load_parts).
#[inline]
pub fn load_parts(state: &mut State, records: &[Mapping], stream: &[u8]) -> Outcome {
    // SAFETY: the state and the slices are valid for their lengths, and Rust keeps `state` apart.
    unsafe {
        glint_load_parts(
            state,
            records.as_ptr(),
            records.len(),
            stream.as_ptr(),
            stream.len(),
        )
    }
}

/// Saves the registers as a stream of parts: see [`Bench::save_parts`](crate::Bench::save_parts).
#[inline]
pub fn save_parts(state: &State, records: &[Mapping], buffer: &mut [u8]) -> Outcome {
    // SAFETY: the state and the slices are valid for their lengths, and Rust keeps `buffer` apart.
    unsafe {
        glint_save_parts(
            state,
            records.as_ptr(),
            records.len(),
            buffer.as_mut_ptr(),
            buffer.len(),
        )
    }
}

/// Stops the device: see [`Bench::stop`](crate::Bench::stop).
#[inline]
pub fn stop(state: &mut State, records: &[Mapping]) -> Outcome {
    // SAFETY: the state and the slice are valid for their lengths, and Rust keeps `state` apart.
    unsafe { glint_stop(state, records.as_ptr(), records.len()) }
}

/// Starts the device: see [`Bench::start`](crate::Bench::start).
#[inline]
pub fn start(state: &mut State, records: &[Mapping]) -> Outcome {
    // SAFETY: the state and the slice are valid for their lengths, and Rust keeps `state` apart.
    unsafe { glint_start(state, records.as_ptr(), records.len()) }
}

/// One step of the walker over a stream, from a place on: see [`Parts`](crate::Parts).
#[inline]
pub fn step(stream: &[u8], place: usize) -> PartStep {
    // SAFETY: the slice is valid for its length.
    unsafe { glint_step(stream.as_ptr(), stream.len(), place) }
}
