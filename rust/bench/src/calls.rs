//! The calls that are measured: each as the emulator's, as the plain program's, and as `memcpy`
//! and `memset` where it moves bytes. All take their arguments from the world, so that the
//! compiler knows none.

use std::hint::black_box;

use glintbasket::raw::{self as emulator, Mapping, State};

use crate::plain;
use crate::world::World;

/// Whether a call was accepted.
pub type Accepted = bool;

/// Makes a call so many times, and says whether the last one was accepted.
pub type Program = fn(&mut World, usize) -> Accepted;

/// The same for a program that has something of its own.
pub type Repeated = Box<dyn FnMut(&mut World, usize) -> Accepted>;

#[derive(Clone, Copy)]
pub struct Call {
    pub name: &'static str,
    pub emulator: Program,
    pub plain: Program,
    /// Which one it is of those that move bytes.
    pub moves: Option<Move>,
}

/// The calls that move bytes.
#[derive(Clone, Copy, Debug, PartialEq, Eq)]
pub enum Move {
    CardRead,
    CardWrite,
    HostLoad,
    HostStore,
}

impl Move {
    /// `memcpy` of as many bytes in one piece, which checks nothing. A store sets their marks
    /// besides, an eighth as many bytes, so it has one with their `memset` too.
    pub fn copies(self) -> &'static [(&'static str, Program)] {
        match self {
            Move::CardRead | Move::HostLoad => LOADS,
            Move::CardWrite | Move::HostStore => STORES,
        }
    }
}

/// A program that repeats one call, which is compiled into its loop.
macro_rules! repeat {
    (|$world:ident| $call:expr) => {
        move |world: &mut World, count: usize| -> Accepted {
            let mut accepted = false;
            for _ in 0..count {
                let $world = black_box(&mut *world);
                accepted = black_box($call);
            }
            accepted
        }
    };
}
pub(crate) use repeat;

/// A call for which the emulator's function and the plain program's take the same arguments.
macro_rules! call {
    (
        $name:literal, $moves:expr, $emulator:ident, $plain:ident,
        |$w:ident| ($($argument:expr),*)
    ) => {
        Call {
            name: $name,
            emulator: repeat!(|$w| !emulator::$emulator($($argument),*).refused),
            plain: repeat!(|$w| plain::$plain($($argument),*).is_ok()),
            moves: $moves,
        }
    };
}

/// A move into the buffer, from the place in a field of the world.
macro_rules! load {
    ($name:literal, $kind:ident, $emulator:ident, $plain:ident, $place:ident) => {
        call!($name, Some(Move::$kind), $emulator, $plain, |w| (
            &w.state,
            &w.records,
            w.memory.get(),
            w.marks.get(),
            w.$place,
            &mut w.buffer.get_mut()[..w.size]
        ))
    };
}

/// A move out of the buffer, to such a place.
macro_rules! store {
    ($name:literal, $kind:ident, $emulator:ident, $plain:ident, $place:ident) => {
        call!($name, Some(Move::$kind), $emulator, $plain, |w| (
            &w.state,
            &w.records,
            w.memory.get_mut(),
            w.marks.get_mut(),
            w.$place,
            &w.buffer.get()[..w.size]
        ))
    };
}

pub const CARD_READ: Call = load!("card-read", CardRead, device_read, card_read, device);
pub const CARD_WRITE: Call = store!("card-write", CardWrite, device_write, card_write, device);
pub const HOST_LOAD: Call = load!("host-load", HostLoad, host_read, host_load, address);
pub const HOST_STORE: Call = store!("host-store", HostStore, host_write, host_store, address);

const LOADS: &[(&str, Program)] = &[("memcpy", repeat!(|w| copy_out(w)))];
const STORES: &[(&str, Program)] = &[
    ("memcpy", repeat!(|w| copy_in(w))),
    ("memcpy+memset", repeat!(|w| copy_in(w) & mark(w))),
];

#[inline(always)]
fn copy_out(w: &mut World) -> Accepted {
    let place = w.address.0 as usize;
    w.buffer.get_mut()[..w.size].copy_from_slice(&w.memory.get()[place..place + w.size]);
    true
}

#[inline(always)]
fn copy_in(w: &mut World) -> Accepted {
    let place = w.address.0 as usize;
    w.memory.get_mut()[place..place + w.size].copy_from_slice(&w.buffer.get()[..w.size]);
    true
}

#[inline(always)]
fn mark(w: &mut World) -> Accepted {
    let place = w.address.0 as usize;
    w.marks.get_mut()[place / 8..(place + w.size) / 8].fill(255);
    true
}

pub const LOOK_UP: Call = Call {
    name: "look-up",
    emulator: repeat!(|w| !emulator::look_up(&w.state, &w.records, w.device)
        .outcome
        .refused),
    plain: repeat!(|w| plain::look_up(&w.state, &w.records, w.device).is_ok()),
    moves: None,
};

/// A walk of the world's queue by a program.
macro_rules! walk {
    ($program:ident, $w:ident) => {
        $program::walk_queue(
            &$w.state,
            &$w.records,
            $w.memory.get(),
            $w.marks.get(),
            $w.queue,
            $w.last,
            &mut $w.numbers,
        )
    };
}

pub const WALK_QUEUE: Call = Call {
    name: "walk-queue",
    emulator: repeat!(|w| !walk!(emulator, w).outcome.refused),
    plain: repeat!(|w| walk!(plain, w).is_ok()),
    moves: None,
};

/// The new mapping lies behind all others.
pub const MAP: Call = Call {
    name: "map",
    emulator: repeat!(|w| undone(emulator_request, w, 113)),
    plain: repeat!(|w| undone(plain_request, w, 113)),
    moves: None,
};

/// The last mapping goes.
pub const UNMAP: Call = Call {
    name: "unmap",
    emulator: repeat!(|w| undone(emulator_request, w, 114)),
    plain: repeat!(|w| undone(plain_request, w, 114)),
    moves: None,
};

/// Counting the last mapping out again undoes a map, counting it in again an unmap.
#[inline(always)]
fn undone(request: impl Fn(&mut World, u32) -> Accepted, w: &mut World, number: u32) -> Accepted {
    let accepted = request(w, number);
    w.state.count = w.held;
    accepted
}

/// Both in turn.
pub const MAP_UNMAP: Call = Call {
    name: "map-unmap",
    emulator: repeat!(|w| emulator_request(w, 113) & emulator_request(w, 114)),
    plain: repeat!(|w| plain_request(w, 113) & plain_request(w, 114)),
    moves: None,
};

#[inline(always)]
fn emulator_request(w: &mut World, number: u32) -> Accepted {
    on_request(w, number, |state, records, memory, marks, buffer| {
        !emulator::request(state, records, memory, marks, 0, number, buffer).refused
    })
}

#[inline(always)]
fn plain_request(w: &mut World, number: u32) -> Accepted {
    on_request(w, number, |state, records, memory, marks, buffer| {
        plain::request(state, records, memory, marks, 0, number, buffer).is_ok()
    })
}

/// Makes a request with its buffer as it was.
#[inline(always)]
fn on_request(
    w: &mut World,
    number: u32,
    request: impl FnOnce(&mut State, &mut [Mapping], &[u8], &[u8], &mut [u8]) -> Accepted,
) -> Accepted {
    let (mut map, mut unmap) = (w.map, w.unmap);
    let buffer = if number == 113 {
        &mut map[..]
    } else {
        &mut unmap[..]
    };
    let (memory, marks) = (w.memory.get(), w.marks.get());
    request(&mut w.state, &mut w.records, memory, marks, buffer)
}

pub const LOAD: Call = call!("load", None, load_parts, load_parts, |w| (
    &mut w.state,
    &w.records,
    &w.buffer.get()[..w.size]
));

pub const SAVE: Call = call!("save", None, save_parts, save_parts, |w| (
    &w.state,
    &w.records,
    &mut w.buffer.get_mut()[..w.size]
));
