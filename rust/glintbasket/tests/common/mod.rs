//! What the tests of the bench share.

use glintbasket::{Error, OwnedBench, Refusal};

/// What memory holds before anybody writes.
pub const GARBAGE: u8 = 0xa5;

/// The size of a page.
pub const PAGE: u64 = 4096;

/// A fresh bench of some pages.
pub fn bench(pages: usize) -> OwnedBench {
    OwnedBench::with_memory(vec![GARBAGE; pages * PAGE as usize]).expect("a fresh start")
}

/// The answer of a refused call.
pub fn refused<T>(refusal: Refusal, place: u64) -> Result<T, Error> {
    Err(Error { refusal, place })
}
