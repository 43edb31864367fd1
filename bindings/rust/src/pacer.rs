//! What the host of a house does next, by the readings of its clock.

use crate::ffi;
use crate::unit::Unit;
use std::fmt;
use std::time::Duration;

/// How many ticks a unit that took longer than one is charged. It is never rounded down.
#[derive(Clone, Copy, Debug, Default, PartialEq, Eq, Hash)]
#[non_exhaustive]
pub enum Rounding {
    /// The time beyond its first tick, rounded up: a unit of 1.01 ticks is charged one.
    #[default]
    Up,
    /// The whole ticks of what the units of its server took beyond a tick. The rest is carried to
    /// the server's next unit.
    Carry,
}

/// What a house in real time has seen.
#[derive(Clone, Copy, Debug, Default, PartialEq, Eq)]
#[must_use]
#[non_exhaustive]
pub struct Counts {
    /// How many units were done.
    pub units: u64,
    /// How many of them took longer than a tick.
    pub overruns: u64,
    /// The longest unit.
    pub longest: Duration,
    /// How many ticks were charged for overruns.
    pub charged: u64,
    /// How many whole ticks the house's clock is behind the real one, as it was seen last.
    pub behind: u64,
    /// The most that this was.
    pub most_behind: u64,
}

/// The pace of a house in real time: which of its ticks have come, and what each of its servers
/// carries. [`House::pace`](crate::House::pace) begins it, and [`House::next`](crate::House::next)
/// asks it.
pub struct Pacer {
    pub(crate) own: ffi::Pacer,
    pub(crate) taken: usize,
}

impl Pacer {
    /// Returns how many messages the last question took, ends included: at most one of each server.
    #[must_use]
    pub fn taken(&self) -> usize {
        self.taken
    }

    /// Returns what was seen so far. A unit counts from when it ends.
    pub fn counts(&self) -> Counts {
        let counts = ffi::counts(&self.own);
        Counts {
            units: counts.units,
            overruns: counts.overruns,
            longest: Duration::from_nanos(counts.longest),
            charged: counts.charged,
            behind: counts.behind,
            most_behind: counts.most_behind,
        }
    }
}

impl fmt::Debug for Pacer {
    fn fmt(&self, f: &mut fmt::Formatter<'_>) -> fmt::Result {
        f.debug_struct("Pacer")
            .field("counts", &self.counts())
            .finish_non_exhaustive()
    }
}

/// What the host of a house does next. Then it reads its clock, and asks
/// [again](crate::House::next).
#[derive(Debug)]
#[must_use]
pub enum Next<'h, T = u64> {
    /// It does this unit, whose tick has come. By [`Unit::done_by`] no unit waits for its own house.
    Do(Unit<'h, T>),
    /// It sleeps until its clock shows this. Somebody is ready, and the tick of the unit comes
    /// then.
    SleepUntil(Duration),
    /// It asks again at once, lest a message came before. Nobody is ready, and from now on the
    /// house listens for its bell.
    Listen,
    /// It [waits](crate::Bell::wait) for the house's [bell](crate::House::bell), and until its
    /// clock shows this at most, if there is an end.
    WaitUntil(Option<Duration>),
    /// Nothing: every client has ended or is gone, and every job is finished.
    Over,
    /// Nothing: the clock of the house stands at its end, 10^12 ticks.
    ClockEnd,
    /// Nothing: there was no memory for a job, which stays in its ring. It may ask again later.
    OutOfMemory,
}

/// Returns so much time in nanoseconds, or `u64::MAX` if they are more.
pub(crate) fn nanos(time: Duration) -> u64 {
    u64::try_from(time.as_nanos()).unwrap_or(u64::MAX)
}
