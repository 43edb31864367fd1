//! The tokens of the jobs that a client sent, and that its house has not begun.

use crate::bell::Bell;
use std::fmt;
use std::sync::atomic::{AtomicBool, AtomicU64, Ordering};
use std::sync::{Mutex, MutexGuard, PoisonError};

/// What one client and its house share: a slot for each job that may be unfinished, by its number.
///
/// No lock here is ever waited for: the client uses the slot of a number before the job is sent, and the house after that.
pub(crate) struct Tokens<T> {
    slots: Box<[Mutex<Option<T>>]>,
    sent: AtomicU64,
    gone: AtomicBool,
    /// What a client that waits for a place in its ring is woken by.
    pub(crate) room: Bell,
}

impl<T> Tokens<T> {
    /// Returns the tokens of a client of whom so many jobs may be unfinished.
    pub(crate) fn new(unfinished: usize) -> Tokens<T> {
        // A token is put down before it is known whether there is a place in the ring: so there is one slot more.
        Tokens {
            slots: (0..=unfinished).map(|_| Mutex::new(None)).collect(),
            sent: AtomicU64::new(0),
            gone: AtomicBool::new(false),
            room: Bell::default(),
        }
    }

    fn slot(&self, number: u64) -> MutexGuard<'_, Option<T>> {
        let slot = &self.slots[(number % self.slots.len() as u64) as usize];
        slot.lock().unwrap_or_else(PoisonError::into_inner)
    }

    /// Puts down the token of the job that gets this number, if it is sent.
    pub(crate) fn put(&self, number: u64, token: T) {
        let other = self.slot(number).replace(token);
        assert!(other.is_none(), "cbs: more jobs are unfinished than fit");
    }

    /// Takes the token of a job.
    pub(crate) fn take(&self, number: u64) -> Option<T> {
        self.slot(number).take()
    }

    /// Notes that the job of this number was sent. Returns its token, if the house is gone and has not seen that.
    pub(crate) fn sent(&self, number: u64) -> Option<T> {
        self.sent.store(number + 1, Ordering::SeqCst);
        // Either this load sees that the house is gone, or the house sees the job.
        if self.gone.load(Ordering::SeqCst) {
            return self.take(number);
        }
        None
    }

    /// Notes that the house is gone. Returns how many jobs were sent to it.
    pub(crate) fn leave(&self) -> u64 {
        self.gone.store(true, Ordering::SeqCst);
        self.sent.load(Ordering::SeqCst)
    }
}

impl<T> fmt::Debug for Tokens<T> {
    fn fmt(&self, f: &mut fmt::Formatter<'_>) -> fmt::Result {
        f.debug_struct("Tokens")
            .field("slots", &self.slots.len())
            .field("sent", &self.sent)
            .finish_non_exhaustive()
    }
}
