//! A house in real time: ticks of a length, units that are measured and charged, and a thread that sleeps while nothing is to be
//! done.
//!
//! ```
//! use cbs::realtime::Realtime;
//! use cbs::{Mode, Plan};
//! use std::time::Duration;
//!
//! let mut plan = Plan::new();
//! plan.admit(2, 5, Mode::Throttled)?; // 2 ms in every 5
//! let (mut house, mut clients) = plan.open(4, 4)?;
//! clients[0].send("wash", 3)?;
//! drop(clients);
//! let mut realtime = Realtime::new(&mut house, Duration::from_millis(1));
//! realtime.run(|unit| println!("{}", *unit.token))?; // the third unit waits for the second period
//! assert_eq!(realtime.counts().units, 3);
//! # Ok::<(), Box<dyn std::error::Error>>(())
//! ```

use crate::bell::Bell;
use crate::error::RunError;
use crate::house::{Ended, House};
use crate::job::Job;
pub use crate::pacer::{Counts, Next, Pacer, Rounding};
use crate::record::{Recorder, Settings};
use crate::unit::Unit;
use std::io::{self, Write};
use std::mem;
use std::thread;
use std::time::{Duration, Instant};

/// A clock that never goes back, and who waits by it. [`Monotonic`] is that of the machine; tests have others.
pub trait Clock {
    /// Returns how much time is over since some moment. A step back counts as no time.
    fn now(&mut self) -> Duration;

    /// Waits until that time.
    fn sleep_until(&mut self, time: Duration);

    /// Waits until the bell rings ([`Bell::wait`]), and until that time at most, if there is one.
    /// It may come back sooner.
    fn wait(&mut self, bell: &Bell, until: Option<Duration>);

    /// Returns how much the serving thread has worked since some moment, by the measure that units
    /// are charged by, or `None` if that is [`now`](Clock::now).
    ///
    /// By default it is `now`: a unit is charged for the time from the question that told it to the
    /// next one, and pays for whatever took the processor away meanwhile, too. With the thread's
    /// processor time (`CLOCK_THREAD_CPUTIME_ID`) each unit pays for itself alone. The house's
    /// clock falls behind by the rest of the time, which [`Counts::behind`] shows, until idle ticks
    /// make up for it. What is promised in ticks is kept, and comes later by as much. More than the
    /// time by `now` is not charged.
    fn worked(&mut self) -> Option<Duration> {
        None
    }
}

/// The machine's monotonic clock.
#[derive(Clone, Copy, Debug)]
pub struct Monotonic(Instant);

impl Default for Monotonic {
    fn default() -> Monotonic {
        Monotonic(Instant::now())
    }
}

impl Clock for Monotonic {
    fn now(&mut self) -> Duration {
        self.0.elapsed()
    }

    fn sleep_until(&mut self, time: Duration) {
        thread::sleep(time.saturating_sub(self.0.elapsed()));
    }

    fn wait(&mut self, bell: &Bell, until: Option<Duration>) {
        bell.wait(until.map(|time| time.saturating_sub(self.0.elapsed())));
    }
}

/// A house that is served in real time, by a tick of some length.
///
/// In each tick it takes messages, and does at most one unit: measured, and charged if it took
/// longer. While nobody is ready ticks pass, and it sleeps until the next deadline of somebody who
/// waits, or until a send. So throttled servers wait in real time. The house's clock is ahead of
/// the real one by at most a tick, and no unit begins before its tick. If it has fallen behind,
/// units follow each other at once.
///
/// It is a loop over [`House::next`].
#[derive(Debug)]
pub struct Realtime<'h, T, C = Monotonic> {
    house: &'h mut House<T>,
    clock: C,
    tick: Duration,
    pacer: Pacer,
    /// What [`Clock::worked`] returned last.
    worked: Option<Duration>,
    /// Where the steps go.
    recorder: Option<Recorder>,
}

impl<'h, T> Realtime<'h, T> {
    /// Serves this house at a tick of that length, which is at least a nanosecond, by the machine's
    /// clock. Its time begins now.
    pub fn new(house: &'h mut House<T>, tick: Duration) -> Realtime<'h, T> {
        Realtime::with_clock(house, tick, Monotonic::default())
    }
}

impl<'h, T, C: Clock> Realtime<'h, T, C> {
    /// Serves this house by another clock. Its time begins now.
    pub fn with_clock(house: &'h mut House<T>, tick: Duration, mut clock: C) -> Realtime<'h, T, C> {
        Realtime {
            pacer: house.pace(tick, Rounding::default(), clock.now()),
            house,
            clock,
            tick,
            worked: None,
            recorder: None,
        }
    }

    /// Records the house from now on, and writes its steps at each [`step`](Realtime::step). Call this before the first one. If
    /// `settings` have no tick, this one is told.
    ///
    /// # Errors
    ///
    /// As [`Recorder::new`].
    pub fn record(
        &mut self,
        to: impl Write + Send + 'static,
        settings: &Settings,
    ) -> io::Result<()> {
        let tick = settings.tick.or(Some(self.tick));
        let settings = Settings {
            tick,
            ..settings.clone()
        };
        self.recorder = Some(Recorder::new(self.house, to, &settings)?);
        Ok(())
    }

    /// Returns what records the house, if something does.
    #[must_use]
    pub fn recorder(&self) -> Option<&Recorder> {
        self.recorder.as_ref()
    }

    /// Ends the recording, if there is one: writes the last steps, and the mark of the end.
    ///
    /// # Errors
    ///
    /// What the writer gave, now or before.
    pub fn end_record(&mut self) -> io::Result<()> {
        match self.recorder.take() {
            Some(recorder) => recorder.end(self.house),
            None => Ok(()),
        }
    }

    /// Charges in this way. Its time begins now, and its counts begin at 0.
    #[must_use]
    pub fn rounding(mut self, rounding: Rounding) -> Realtime<'h, T, C> {
        self.pacer = self.house.pace(self.tick, rounding, self.clock.now());
        self
    }

    /// Returns the house.
    #[must_use]
    pub fn house(&self) -> &House<T> {
        self.house
    }

    /// Returns how many messages the last step took from the rings, ends included. What is
    /// [promised](House::promised) of a job can be asked after the step that took it.
    #[must_use]
    pub fn taken(&self) -> usize {
        self.pacer.taken()
    }

    /// Returns what was seen so far. A unit counts from when it ends, at the next question.
    pub fn counts(&self) -> Counts {
        self.pacer.counts()
    }

    /// Serves until every client has ended or is gone and all jobs are finished, or until the house
    /// is told to [stop](House::stopper), and calls `work` with each unit.
    ///
    /// # Errors
    ///
    /// [`RunError`]. Nothing is lost: it may be called again, and goes on at the same time.
    ///
    /// # Panics
    ///
    /// If `work` panics. The unit is charged and counted at once, and the panic is passed on.
    /// Nothing else is lost: it may be called again.
    pub fn run(&mut self, mut work: impl FnMut(Unit<'_, T>)) -> Result<Ended, RunError> {
        loop {
            if let Some(ended) = self.step(&mut work)? {
                return Ok(ended);
            }
        }
    }

    /// Asks one question, and does what follows from it: calls `work` with a unit, or sleeps.
    /// Returns why there is nothing more to do, or `None` if there is.
    ///
    /// Between two steps the house can be looked at: its views, charges and promises, and the
    /// [counts](Realtime::counts). A unit ends, and is charged, at the next step. If there is none
    /// for now, call [`done`](Realtime::done). A step sleeps no longer than until the next tick of
    /// a ready server, the next deadline of one that waits, a send or a stop. A [`Clock`] that
    /// comes back sooner from [`wait`](Clock::wait) makes that shorter.
    ///
    /// ```
    /// use cbs::realtime::Realtime;
    /// use cbs::{Mode, Plan};
    /// use std::time::Duration;
    ///
    /// let mut plan = Plan::new();
    /// plan.admit(2, 5, Mode::Throttled)?;
    /// let (mut house, mut clients) = plan.open(4, 4)?;
    /// clients[0].send("wash", 3)?;
    /// drop(clients);
    /// let mut realtime = Realtime::new(&mut house, Duration::from_millis(1));
    /// while realtime.step(|unit| println!("{}", *unit.token))?.is_none() {
    ///     println!("{} ticks behind", realtime.counts().behind);
    ///     println!("{:?}", realtime.house().view(0)?);
    /// }
    /// # Ok::<(), Box<dyn std::error::Error>>(())
    /// ```
    ///
    /// # Errors
    ///
    /// [`RunError`]. Nothing is lost: it may be called again, and goes on at the same time.
    ///
    /// # Panics
    ///
    /// If `work` panics, as [`run`](Realtime::run) does.
    pub fn step(&mut self, work: impl FnOnce(Unit<'_, T>)) -> Result<Option<Ended>, RunError> {
        if self.house.is_told_to_stop() {
            self.done();
            return Ok(Some(Ended::Stopped));
        }
        self.write_steps();
        let (now, took) = (self.clock.now(), self.took());
        let ends = EndsByPanic(self);
        let Realtime {
            house,
            clock,
            pacer,
            ..
        } = &mut *ends.0;
        match house.ask(pacer, now, took) {
            Next::Do(unit) => unit.done_by(work),
            Next::SleepUntil(time) => clock.sleep_until(time),
            Next::Listen => {}
            Next::WaitUntil(time) => clock.wait(house.bell(), time),
            Next::Over => return Ok(Some(Ended::Closed)),
            Next::ClockEnd => return Err(RunError::ClockEnd),
            Next::OutOfMemory => return Err(RunError::OutOfMemory),
        }
        Ok(None)
    }

    /// Ends the unit of the last step now, and charges it. It is for who makes no more steps, for
    /// now or for ever.
    pub fn done(&mut self) {
        let (now, took) = (self.clock.now(), self.took());
        self.house.end(&mut self.pacer, now, took);
        self.write_steps();
    }

    /// Writes the steps that the house made, if it is recorded.
    fn write_steps(&mut self) {
        if let Some(recorder) = &mut self.recorder {
            recorder.step(self.house);
        }
    }

    /// Returns how much the thread has worked since this was called last, if its clock tells.
    fn took(&mut self) -> Option<Duration> {
        let before = mem::replace(&mut self.worked, self.clock.worked());
        Some(self.worked?.saturating_sub(before?))
    }
}

/// Ends the unit that is being done if it panics.
struct EndsByPanic<'r, 'h, T, C: Clock>(&'r mut Realtime<'h, T, C>);

impl<T, C: Clock> Drop for EndsByPanic<'_, '_, T, C> {
    fn drop(&mut self) {
        if thread::panicking() {
            self.0.done();
        }
    }
}

impl<C: Clock> Realtime<'_, Job, C> {
    /// Runs jobs that are closures, as [`run`](Realtime::run) with [`Unit::run`].
    ///
    /// # Errors
    ///
    /// [`RunError`].
    pub fn run_jobs(&mut self) -> Result<Ended, RunError> {
        self.run(|unit| unit.run())
    }
}
