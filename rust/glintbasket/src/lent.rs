//! What a bench works on.

use std::ops::{Deref, DerefMut};

/// Bytes or records: lent to a bench, or its own.
pub(crate) enum Lent<'m, T> {
    Borrowed(&'m mut [T]),
    Owned(Vec<T>),
}

impl<T> Deref for Lent<'_, T> {
    type Target = [T];

    fn deref(&self) -> &[T] {
        match self {
            Lent::Borrowed(slice) => slice,
            Lent::Owned(slice) => slice,
        }
    }
}

impl<T> DerefMut for Lent<'_, T> {
    fn deref_mut(&mut self) -> &mut [T] {
        match self {
            Lent::Borrowed(slice) => slice,
            Lent::Owned(slice) => slice,
        }
    }
}
