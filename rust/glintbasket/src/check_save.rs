//! Whether a stream is what saving writes.

use crate::card::Card;
use crate::raw;

/// What [`check_save`] found.
#[derive(Clone, Copy, Debug, PartialEq, Eq, Hash)]
pub enum SaveCheck {
    /// Some register state of the card saves to these very bytes.
    Save,
    /// No register state does. So many bytes of the stream, and no more, are the beginning of a save: this is the place of the first byte
    /// that no save has there, or the stream's length where it ends too early.
    DiffersAt(usize),
}

impl SaveCheck {
    /// Whether it is a save.
    pub fn is_save(self) -> bool {
        self == SaveCheck::Save
    }
}

/// Whether a stream is what a good saver writes: whether some register state of the card, saved, gives these very bytes.
///
/// The stream may have any length. A stream that [loads](crate::Bench::load_parts) need not be a save: loading takes parts in any order,
/// passes over optional ones, and needs none of offered features.
///
/// ```
/// use glintbasket::{check_save, Card, OwnedBench, SaveCheck, SAVED_MAX};
///
/// # fn main() -> Result<(), glintbasket::Error> {
/// let bench = OwnedBench::with_memory(vec![0; 4096])?;
/// let mut buffer = [0; SAVED_MAX];
/// let length = bench.save_parts(&mut buffer)?;
/// assert_eq!(check_save(Card::Features64, &buffer[..length]), SaveCheck::Save);
///
/// // Without the part of status.
/// assert_eq!(check_save(Card::Features64, &buffer[..24]), SaveCheck::DiffersAt(24));
///
/// // The size of the other card's features.
/// assert_eq!(check_save(Card::Features128, &buffer[..length]), SaveCheck::DiffersAt(12));
/// # Ok(())
/// # }
/// ```
pub fn check_save(card: Card, stream: &[u8]) -> SaveCheck {
    match raw::check_save(card, stream) {
        raw::IS_SAVE => SaveCheck::Save,
        length => SaveCheck::DiffersAt(length as usize),
    }
}
