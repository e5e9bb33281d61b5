//! Whether a stream is what saving writes, as the static library exports it.

use crate::card::Card;

extern "C" {
    fn glint_check_save(stream: *const u8, stream_length: usize) -> u64;
    fn glint_check_save_128(stream: *const u8, stream_length: usize) -> u64;
}

/// The number by which [`check_save`] says yes.
pub const IS_SAVE: u64 = u64::MAX;

/// [`IS_SAVE`] for a save of the card, else the length of the longest beginning that a save has:
/// see [`check_save`](crate::check_save).
#[inline]
pub fn check_save(card: Card, stream: &[u8]) -> u64 {
    let exported = match card {
        Card::Features64 => glint_check_save,
        Card::Features128 => glint_check_save_128,
    };
    // SAFETY: the slice is valid for its length, and nothing is written (see raw/mod.rs).
    unsafe { exported(stream.as_ptr(), stream.len()) }
}
