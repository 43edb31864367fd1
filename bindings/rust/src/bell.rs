//! How who waits is woken.

use std::sync::atomic::{fence, AtomicBool, Ordering};
use std::sync::{Arc, Condvar, Mutex, MutexGuard, PoisonError};
use std::time::{Duration, Instant};

/// What a house that sleeps is woken by. Each send and each end of its clients rings it, and so does a client that is dropped.
///
/// A ring costs a sender a fence and a load, as long as the house is awake.
#[derive(Debug, Default)]
pub struct Bell {
    /// Whether somebody listens: only then a ring has to wake.
    listening: AtomicBool,
    rung: Mutex<bool>,
    ringing: Condvar,
}

impl Bell {
    fn rung(&self) -> MutexGuard<'_, bool> {
        self.rung.lock().unwrap_or_else(PoisonError::into_inner)
    }

    /// Wakes who listens, if somebody does. What was done before is seen by whoever wakes.
    #[inline]
    pub fn ring(&self) {
        Bell::ring_each(Some(self));
    }

    /// Rings each of these.
    pub(crate) fn ring_each<'a>(bells: impl IntoIterator<Item = &'a Bell>) {
        // Either a load below sees that somebody listens, or who listens looks after what was done, and sees that.
        fence(Ordering::SeqCst);
        for bell in bells {
            if bell.listening.load(Ordering::SeqCst) && bell.listening.swap(false, Ordering::SeqCst)
            {
                *bell.rung() = true;
                bell.ringing.notify_one();
            }
        }
    }

    /// Listens from now on. Who then sees nothing to do may [wait](Bell::wait): no ring is missed.
    pub(crate) fn listen(&self) {
        *self.rung() = false;
        self.listening.store(true, Ordering::SeqCst);
        fence(Ordering::SeqCst);
    }

    /// Does not listen any more.
    pub(crate) fn leave(&self) {
        self.listening.store(false, Ordering::SeqCst);
    }

    /// Waits until it is rung, and for so long at most, if that is said. It is for who was told
    /// [`WaitUntil`](crate::realtime::Next::WaitUntil): the house has listened since, so no ring is
    /// missed. A [`Clock`](crate::realtime::Clock) calls it, when it is told to wait.
    pub fn wait(&self, most: Option<Duration>) {
        let until = most.and_then(|most| Instant::now().checked_add(most));
        let mut rung = self.rung();
        while !*rung {
            rung = match until {
                None => self
                    .ringing
                    .wait(rung)
                    .unwrap_or_else(PoisonError::into_inner),
                Some(until) => {
                    let left = until.saturating_duration_since(Instant::now());
                    if left == Duration::ZERO {
                        break;
                    }
                    let waited = self.ringing.wait_timeout(rung, left);
                    waited.unwrap_or_else(PoisonError::into_inner).0
                }
            };
        }
        drop(rung);
        self.leave();
    }
}

/// Rings when it is dropped.
#[derive(Debug)]
pub(crate) struct RingsAtLast(pub(crate) Arc<Bell>);

impl Drop for RingsAtLast {
    fn drop(&mut self) {
        self.0.ring();
    }
}

/// Tells a house to stop, from any thread: see [`House::stopper`](crate::House::stopper).
#[derive(Clone, Debug)]
pub struct Stopper {
    told: Arc<AtomicBool>,
    bell: Arc<Bell>,
}

impl Stopper {
    pub(crate) fn new(bell: Arc<Bell>) -> Stopper {
        Stopper {
            told: Arc::default(),
            bell,
        }
    }

    /// Tells the house to stop. The call that serves returns after the unit that is being done; it may be called again.
    pub fn stop(&self) {
        self.told.store(true, Ordering::SeqCst);
        self.bell.ring();
    }

    /// Returns whether it was told so, and forgets it.
    pub(crate) fn is_told(&self) -> bool {
        self.told.load(Ordering::SeqCst) && self.told.swap(false, Ordering::SeqCst)
    }
}
