//! The rules (docs/RULES.md), written a second time, from the rules alone.
//!
//! It shares no code with the emulator, so that a fault of either shows as a difference between
//! the two. It is made to be checked against the rules by reading: byte by byte, one check a
//! line, in their order, with sums in `u128` so that none can wrap.
//!
//! | Module | Section of docs/RULES.md |
//! |---|---|
//! | [`bench`] | 1 |
//! | [`answer`] | 2 |
//! | [`requests`] | 3 |
//! | [`lines`] | 3 and 4: interrupt lines |
//! | [`moves`], [`queues`] | 4 |
//! | [`registers`], [`parts`], [`check_save`] | 5 and 6 |
//! | [`device_files`] | 9 |
//! | [`session`] | none: docs/session-format.md |

#![forbid(unsafe_code)]

pub mod answer;
pub mod bench;
pub mod bytes;
pub mod check_save;
pub mod device_files;
pub mod lines;
pub mod moves;
pub mod parts;
pub mod queues;
pub mod registers;
pub mod requests;
pub mod session;
