//! Jobs that are closures.

use crate::doing::is_in_unit;
use crate::error::RunError;
use crate::house::{Ended, House};
use crate::unit::Unit;
use std::any::Any;
use std::error::Error;
use std::fmt;
use std::future::Future;
use std::ops::ControlFlow;
use std::panic::{catch_unwind, AssertUnwindSafe};
use std::pin::Pin;
use std::sync::{Arc, Condvar, Mutex, MutexGuard, PoisonError};
use std::task::{Context, Poll, Waker};
use std::time::{Duration, Instant};

/// A job that is a closure: it is called once for each unit, with the number of the unit, from 0. What its last call returns is the
/// job's result, which its [`JobHandle`] gives. It is a token as any other.
///
/// ```
/// use cbs::{Job, Mode, Plan};
///
/// let mut plan = Plan::new();
/// plan.admit(2, 5, Mode::Soft)?;
/// let (mut house, mut clients) = plan.open(4, 4)?;
/// let mut sum = 0;
/// let (job, result) = Job::new(move |unit| {
///     sum += unit;
///     sum
/// });
/// clients[0].send(job, 4)?;
/// drop(clients);
/// house.run_jobs()?;
/// assert_eq!(result.join()?, 0 + 1 + 2 + 3);
/// # Ok::<(), Box<dyn std::error::Error>>(())
/// ```
#[must_use]
pub struct Job(Box<dyn Step + Send>);

/// What is done at a unit.
trait Step {
    /// Does the unit. Returns whether the job ends with it, although it was not the last.
    fn step(&mut self, last: bool) -> bool;
}

impl Job {
    /// Makes a job of a closure, and the handle of its result.
    ///
    /// A closure that panics ends its job, and neither the house nor the other jobs: the units that are left are not run.
    pub fn new<R, F>(mut work: F) -> (Job, JobHandle<R>)
    where
        R: Send + 'static,
        F: FnMut(u32) -> R + Send + 'static,
    {
        Job::breakable(move |unit| ControlFlow::Continue(work(unit)))
    }

    /// Makes a job of a closure that may end early, and the handle of its result. If a call returns
    /// [`ControlFlow::Break`], the job ends with this unit, as by [`Unit::finish`]. Such a job has no result: its handle gives
    /// [`JobError::EndedEarly`].
    ///
    /// ```
    /// use cbs::{Job, JobError, Mode, Plan};
    /// use std::ops::ControlFlow;
    ///
    /// let mut plan = Plan::new();
    /// plan.admit(1, 10, Mode::Soft)?;
    /// let (mut house, mut clients) = plan.open(4, 4)?;
    /// let is_late = true;
    /// let (frame, shown) = Job::breakable(move |unit| match is_late {
    ///     true => ControlFlow::Break(()),
    ///     false => ControlFlow::Continue(unit),
    /// });
    /// clients[0].send(frame, 20)?;
    /// drop(clients);
    /// house.run_jobs()?;
    /// assert!(matches!(shown.join(), Err(JobError::EndedEarly)));
    /// assert_eq!(house.now(), 1);
    /// # Ok::<(), Box<dyn std::error::Error>>(())
    /// ```
    pub fn breakable<R, F>(work: F) -> (Job, JobHandle<R>)
    where
        R: Send + 'static,
        F: FnMut(u32) -> ControlFlow<(), R> + Send + 'static,
    {
        let shared = Arc::new(Shared {
            state: Mutex::new(State::Waits(None)),
            changed: Condvar::new(),
        });
        let handle = JobHandle(Arc::clone(&shared));
        let closure = Closure {
            work,
            unit: 0,
            shared,
        };
        (Job(Box::new(closure)), handle)
    }
}

impl fmt::Debug for Job {
    fn fmt(&self, f: &mut fmt::Formatter<'_>) -> fmt::Result {
        f.debug_struct("Job").finish_non_exhaustive()
    }
}

impl Unit<'_, Job> {
    /// Does the unit: calls the job's closure, by [`done_by`](Unit::done_by).
    pub fn run(self) {
        self.done_by(|mut unit| {
            let last = unit.is_last();
            if unit.token.0.step(last) {
                drop(unit.finish());
            }
        });
    }
}

impl House<Job> {
    /// Runs the jobs, as [`run_until_closed`](House::run_until_closed) with [`Unit::run`].
    ///
    /// # Errors
    ///
    /// [`RunError`].
    pub fn run_jobs(&mut self) -> Result<Ended, RunError> {
        self.run_until_closed(|unit| unit.run())
    }
}

/// What a job and its handle share.
struct Shared<R> {
    state: Mutex<State<R>>,
    changed: Condvar,
}

enum State<R> {
    /// The job is not finished. Perhaps a future waits for it.
    Waits(Option<Waker>),
    Ended(Result<R, JobError>),
    /// The result was taken.
    Taken,
}

impl<R> Shared<R> {
    fn state(&self) -> MutexGuard<'_, State<R>> {
        self.state.lock().unwrap_or_else(PoisonError::into_inner)
    }

    /// Ends the job, unless it has ended.
    fn end(&self, result: Result<R, JobError>) {
        let mut state = self.state();
        if let State::Waits(waker) = &mut *state {
            let waker = waker.take();
            *state = State::Ended(result);
            drop(state);
            self.changed.notify_all();
            if let Some(waker) = waker {
                waker.wake();
            }
        }
    }
}

struct Closure<R, F> {
    work: F,
    unit: u32,
    shared: Arc<Shared<R>>,
}

impl<R, F: FnMut(u32) -> ControlFlow<(), R>> Step for Closure<R, F> {
    fn step(&mut self, last: bool) -> bool {
        let unit = self.unit;
        self.unit += 1;
        let error = match catch_unwind(AssertUnwindSafe(|| (self.work)(unit))) {
            Ok(ControlFlow::Continue(result)) => {
                if last {
                    self.shared.end(Ok(result));
                }
                return false;
            }
            Ok(ControlFlow::Break(())) => JobError::EndedEarly,
            Err(payload) => JobError::Panicked(Payload(payload)),
        };
        self.shared.end(Err(error));
        true
    }
}

impl<R, F> Drop for Closure<R, F> {
    fn drop(&mut self) {
        self.shared.end(Err(JobError::Lost));
    }
}

/// The handle of a job's result. It may be waited for by [`join`](JobHandle::join), or as a future by any executor.
///
/// A handle that is dropped does not end its job.
#[must_use]
pub struct JobHandle<R>(Arc<Shared<R>>);

impl<R> JobHandle<R> {
    /// Returns whether the job has ended.
    #[must_use]
    pub fn is_finished(&self) -> bool {
        !matches!(*self.0.state(), State::Waits(_))
    }

    /// Waits until the job has ended, and returns its result.
    ///
    /// In a unit of any house a join does not wait. If the job has ended the join returns its result, and is refused at once
    /// if not. If the same house has the job, the serving thread would wait for itself; and a handle does not know its house.
    ///
    /// # Errors
    ///
    /// [`JobError`], but never [`JobError::TimedOut`]. [`JobError::InUnit`] in a unit, if the job has not ended. The job goes on
    /// then, and its result is dropped. [`join_timeout`](JobHandle::join_timeout) would hand back the handle.
    ///
    /// # Panics
    ///
    /// If the result was taken by a poll.
    pub fn join(self) -> Result<R, JobError> {
        self.join_until(None).map_err(JobError::from)
    }

    /// Waits until the job has ended, as [`join`](JobHandle::join), but no longer than `most`. Returns its result.
    ///
    /// If `most` is zero the join does not wait. In a unit of any house the join does not wait, whatever `most` is.
    ///
    /// # Errors
    ///
    /// [`NotJoined`]. By [`JobError::TimedOut`] if the job has not ended in that time, and by [`JobError::InUnit`] in a unit, if
    /// the job has not ended: both hand back the handle. By another [`JobError`] if the job ended without a result.
    ///
    /// # Panics
    ///
    /// If the result was taken by a poll.
    ///
    /// ```
    /// use cbs::{Job, JobError, Mode, Plan};
    /// use std::time::Duration;
    ///
    /// let mut plan = Plan::new();
    /// plan.admit(2, 5, Mode::Soft)?;
    /// let (mut house, mut clients) = plan.open(4, 4)?;
    /// let (job, handle) = Job::new(|unit| unit);
    /// clients[0].send(job, 2)?;
    /// drop(clients);
    /// let most = Duration::from_millis(1);
    /// let not_yet = handle.join_timeout(most).unwrap_err(); // nobody serves
    /// assert!(matches!(not_yet.error, JobError::TimedOut));
    /// let handle = not_yet.handle.expect("the job may still end");
    /// house.run_jobs()?;
    /// assert_eq!(handle.join_timeout(most)?, 1);
    /// # Ok::<(), Box<dyn std::error::Error>>(())
    /// ```
    pub fn join_timeout(self, most: Duration) -> Result<R, NotJoined<R>> {
        // A time that no clock will show is no limit.
        self.join_until(Instant::now().checked_add(most))
    }

    /// Waits until the job has ended, and until that time at most.
    fn join_until(self, until: Option<Instant>) -> Result<R, NotJoined<R>> {
        let mut state = self.0.state();
        loop {
            match std::mem::replace(&mut *state, State::Taken) {
                State::Ended(Ok(result)) => return Ok(result),
                State::Ended(Err(error)) => {
                    let handle = None;
                    return Err(NotJoined { error, handle });
                }
                State::Taken => panic!("the result was taken by a poll"),
                waits => *state = waits,
            }
            let left = until.map(|until| until.saturating_duration_since(Instant::now()));
            let refused = if is_in_unit() {
                Some(JobError::InUnit)
            } else {
                (left == Some(Duration::ZERO)).then_some(JobError::TimedOut)
            };
            if let Some(error) = refused {
                drop(state);
                let handle = Some(self);
                return Err(NotJoined { error, handle });
            }
            let changed = &self.0.changed;
            state = match left {
                None => changed.wait(state).unwrap_or_else(PoisonError::into_inner),
                Some(left) => {
                    let waited = changed.wait_timeout(state, left);
                    waited.unwrap_or_else(PoisonError::into_inner).0
                }
            };
        }
    }
}

impl<R> Future for JobHandle<R> {
    type Output = Result<R, JobError>;

    fn poll(self: Pin<&mut Self>, context: &mut Context<'_>) -> Poll<Self::Output> {
        let mut state = self.0.state();
        match std::mem::replace(&mut *state, State::Taken) {
            State::Ended(result) => Poll::Ready(result),
            State::Taken => panic!("the result was taken by a poll before"),
            State::Waits(_) => {
                *state = State::Waits(Some(context.waker().clone()));
                Poll::Pending
            }
        }
    }
}

impl<R> fmt::Debug for JobHandle<R> {
    fn fmt(&self, f: &mut fmt::Formatter<'_>) -> fmt::Result {
        f.debug_struct("JobHandle")
            .field("finished", &self.is_finished())
            .finish_non_exhaustive()
    }
}

/// Why a job has no result, or none yet.
#[derive(Debug)]
#[non_exhaustive]
pub enum JobError {
    /// The job was dropped before its last unit: it was not sent, or its house was dropped.
    Lost,
    /// Its closure panicked, with this.
    Panicked(Payload),
    /// It ended early, and so has no result: its closure asked for that ([`Job::breakable`]).
    EndedEarly,
    /// The job had not ended when the time of [`JobHandle::join_timeout`] was over.
    TimedOut,
    /// The join was called in a unit, and the job had not ended. The serving thread might have waited for itself, so the join
    /// did not wait.
    InUnit,
}

impl fmt::Display for JobError {
    fn fmt(&self, f: &mut fmt::Formatter<'_>) -> fmt::Result {
        match self {
            JobError::Lost => f.write_str("the job was dropped before its last unit"),
            JobError::Panicked(payload) => match payload.text() {
                Some(text) => write!(f, "the job panicked: {text}"),
                None => f.write_str("the job panicked"),
            },
            JobError::EndedEarly => f.write_str("the job ended early"),
            JobError::TimedOut => f.write_str("the job has not ended in time"),
            JobError::InUnit => {
                f.write_str("a unit does not wait for a job, lest it wait for its own house")
            }
        }
    }
}

impl Error for JobError {}

/// A join that has no result: why, and the handle, if the job may have a result later.
pub struct NotJoined<R> {
    /// Why there is none.
    pub error: JobError,
    /// The handle, after [`JobError::TimedOut`] and [`JobError::InUnit`]. There is none if the job has ended.
    pub handle: Option<JobHandle<R>>,
}

impl<R> fmt::Debug for NotJoined<R> {
    fn fmt(&self, f: &mut fmt::Formatter<'_>) -> fmt::Result {
        f.debug_struct("NotJoined")
            .field("error", &self.error)
            .finish_non_exhaustive()
    }
}

impl<R> fmt::Display for NotJoined<R> {
    fn fmt(&self, f: &mut fmt::Formatter<'_>) -> fmt::Result {
        self.error.fmt(f)
    }
}

impl<R> Error for NotJoined<R> {}

impl<R> From<NotJoined<R>> for JobError {
    fn from(not_joined: NotJoined<R>) -> JobError {
        not_joined.error
    }
}

/// What a closure panicked with.
pub struct Payload(Box<dyn Any + Send>);

impl Payload {
    /// Returns the text of the panic, if it has one.
    #[must_use]
    pub fn text(&self) -> Option<&str> {
        let literal = self.0.downcast_ref::<&str>().copied();
        literal.or_else(|| self.0.downcast_ref::<String>().map(String::as_str))
    }

    /// Returns the payload itself, for [`std::panic::resume_unwind`].
    #[must_use]
    pub fn into_inner(self) -> Box<dyn Any + Send> {
        self.0
    }
}

impl fmt::Debug for Payload {
    fn fmt(&self, f: &mut fmt::Formatter<'_>) -> fmt::Result {
        self.text().fmt(f)
    }
}
