//! A value that counts its drops.
use std::cell::Cell;

/// A value that counts its drops.
pub struct Counted<'a> {
    pub ends: &'a Cell<u32>,
}

impl Drop for Counted<'_> {
    fn drop(self) {
        let Self { ends } = self;
        ends.set(ends.get().wrapping_add(1));
    }
}
