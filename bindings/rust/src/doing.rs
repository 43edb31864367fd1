//! Which thread does a unit of which house: a unit that waits for its own house waits for ever.

use std::cell::Cell;
use std::sync::atomic::{AtomicUsize, Ordering};

thread_local! {
    /// How many units the thread is in: more than one, if a unit serves another house.
    static UNITS: Cell<usize> = const { Cell::new(0) };
}

/// Returns the number of the calling thread, which no other thread has as long as this one lives. It is not 0.
#[inline]
fn me() -> usize {
    UNITS.with(|units| units as *const Cell<usize> as usize)
}

/// Returns whether the calling thread is in a unit, of any house.
#[inline]
pub(crate) fn is_in_unit() -> bool {
    UNITS.with(Cell::get) > 0
}

/// The thread that does a unit of a house now, as the house and its clients see it: its number, or 0.
///
/// Only the thread that serves writes it, and each thread looks for its own number alone. So nothing has to be ordered.
#[derive(Debug, Default)]
pub(crate) struct Doer(AtomicUsize);

impl Doer {
    /// Returns whether the calling thread does a unit of the house.
    #[inline]
    pub(crate) fn is_me(&self) -> bool {
        self.0.load(Ordering::Relaxed) == me()
    }

    /// Notes that the calling thread does a unit of the house, until what this returns is dropped.
    #[inline]
    pub(crate) fn begin(&self) -> Doing<'_> {
        let before = self.0.load(Ordering::Relaxed);
        self.0.store(me(), Ordering::Relaxed);
        UNITS.with(|units| units.set(units.get() + 1));
        Doing { doer: self, before }
    }
}

/// Lasts as long as a unit is done, also if that panics.
pub(crate) struct Doing<'d> {
    doer: &'d Doer,
    /// What stood there before: the same thread, if it was in this unit already.
    before: usize,
}

impl Drop for Doing<'_> {
    #[inline]
    fn drop(&mut self) {
        UNITS.with(|units| units.set(units.get() - 1));
        self.doer.0.store(self.before, Ordering::Relaxed);
    }
}
