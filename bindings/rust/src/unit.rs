use crate::doing::Doer;
use crate::error::not_answered;
use crate::ffi::{self, Handle};
use std::fmt;
use std::ops::{Deref, DerefMut};

/// A unit of a job, which the program does.
#[non_exhaustive]
pub struct Unit<'h, T> {
    /// The server of the job.
    pub server: usize,
    /// The number of the job among those of its server, from 0, as [`Client::send`](crate::Client::send) returned it.
    pub seq: u64,
    /// What was sent with the job.
    pub token: Token<'h, T>,
    pub(crate) doer: &'h Doer,
    pub(crate) handle: &'h mut Handle,
}

impl<T> fmt::Debug for Unit<'_, T> {
    fn fmt(&self, f: &mut fmt::Formatter<'_>) -> fmt::Result {
        f.debug_struct("Unit")
            .field("server", &self.server)
            .field("seq", &self.seq)
            .field("token", &self.token)
            .finish_non_exhaustive()
    }
}

impl<T> Unit<'_, T> {
    /// Returns whether it is the last unit of the job.
    #[must_use]
    pub fn is_last(&self) -> bool {
        self.token.is_last()
    }

    /// Returns the token, if it is the last unit of the job. The house keeps it otherwise.
    #[must_use]
    pub fn into_token(self) -> Option<T> {
        self.is_last().then(|| self.token.into_inner())
    }

    /// Ends the job with this unit, although it has units left, and returns its token: a frame that is late, say. The job
    /// leaves its queue, and counts as finished.
    ///
    /// In hindsight the job had only the units that it got, from its send on. So no clock, budget or deadline changes. The
    /// server is still charged for this unit. If it is the last unit of the job
    /// anyway, the call returns the token and does nothing more.
    ///
    /// ```
    /// use cbs::{Mode, Plan, Ran};
    ///
    /// let mut plan = Plan::new();
    /// plan.admit(1, 10, Mode::Soft)?;
    /// let (mut house, mut clients) = plan.open(4, 4)?;
    /// clients[0].send("a late frame", 20)?;
    /// clients[0].send("a frame", 20)?;
    /// if let Ran::Unit(unit) = house.turn().ran {
    ///     assert_eq!(unit.finish(), "a late frame"); // after one unit of twenty
    /// }
    /// assert_eq!(house.view(0)?.finished, 1);
    /// assert!(matches!(house.turn().ran, Ran::Unit(unit) if *unit.token == "a frame"));
    /// # Ok::<(), Box<dyn std::error::Error>>(())
    /// ```
    pub fn finish(self) -> T {
        if !self.is_last() {
            // The unit has the house, so no call came between the two.
            ffi::finish(self.handle, self.server as u16)
                .unwrap_or_else(|status| not_answered(status));
        }
        self.token.into_inner()
    }

    /// Has `work` do the unit, and returns what `work` returns.
    ///
    /// Within `work` each call that would wait for this house is refused, and does not hang. These are
    /// [`blocking_send`](crate::Client::blocking_send) and [`send_timeout`](crate::Client::send_timeout) by a client of the
    /// house. So are [`join`](crate::JobHandle::join) and [`join_timeout`](crate::JobHandle::join_timeout), if the job has not
    /// ended.
    ///
    /// The calls that serve do each unit so, and so does [`Unit::run`] of a [`Job`](crate::Job). It is for a loop of one's own.
    /// If the loop does its units without this call, what waits for the house is not seen, and hangs.
    ///
    /// ```
    /// use cbs::{Mode, Plan, Ran, SendError};
    ///
    /// let mut plan = Plan::new();
    /// plan.admit(2, 5, Mode::Soft)?;
    /// let (mut house, mut clients) = plan.open(4, 4)?;
    /// let mut client = clients.remove(0);
    /// client.send("wash", 1)?;
    /// if let Ran::Unit(unit) = house.turn().ran {
    ///     let refused = unit.done_by(|_unit| client.blocking_send("dry", 1)).unwrap_err();
    ///     assert_eq!((refused.error, refused.token), (SendError::InUnit, "dry"));
    /// }
    /// # Ok::<(), Box<dyn std::error::Error>>(())
    /// ```
    ///
    /// # Panics
    ///
    /// If `work` panics.
    #[inline]
    pub fn done_by<R>(self, work: impl FnOnce(Self) -> R) -> R {
        let _doing = self.doer.begin();
        work(self)
    }
}

/// The token of a job that gets a unit: it is used as the value itself.
///
/// The house keeps it as long as units are left. With the last unit, or with the one by which the job [ends
/// early](Unit::finish), it is the program's.
pub struct Token<'h, T>(Held<'h, T>);

/// Who has a token.
enum Held<'h, T> {
    /// More units are left: the house has it in this place, which is filled.
    Kept(&'h mut Option<T>),
    /// It is the last unit.
    Last(T),
}

const FILLED: &str = "the house keeps the token of a job that is not finished";

impl<'h, T> Token<'h, T> {
    /// Returns the token in this place of the house's. It is taken out of the place with the `last` unit.
    pub(crate) fn of(place: &'h mut Option<T>, last: bool) -> Token<'h, T> {
        assert!(place.is_some(), "{FILLED}");
        Token(if last {
            Held::Last(place.take().expect(FILLED))
        } else {
            Held::Kept(place)
        })
    }

    fn is_last(&self) -> bool {
        matches!(self.0, Held::Last(_))
    }

    /// Returns the value, which the house keeps no longer.
    fn into_inner(self) -> T {
        match self.0 {
            Held::Kept(place) => place.take().expect(FILLED),
            Held::Last(token) => token,
        }
    }
}

impl<T> Deref for Token<'_, T> {
    type Target = T;

    fn deref(&self) -> &T {
        match &self.0 {
            Held::Kept(place) => place.as_ref().expect(FILLED),
            Held::Last(token) => token,
        }
    }
}

impl<T> DerefMut for Token<'_, T> {
    fn deref_mut(&mut self) -> &mut T {
        match &mut self.0 {
            Held::Kept(place) => place.as_mut().expect(FILLED),
            Held::Last(token) => token,
        }
    }
}

impl<T> fmt::Debug for Token<'_, T> {
    fn fmt(&self, f: &mut fmt::Formatter<'_>) -> fmt::Result {
        f.write_str(if self.is_last() {
            "Last(..)"
        } else {
            "Kept(..)"
        })
    }
}

/// The token of a job that its house did not finish: see [`House::into_unfinished`](crate::House::into_unfinished).
#[derive(Clone, Debug, PartialEq, Eq)]
#[non_exhaustive]
pub struct Unfinished<T> {
    /// The server of the job.
    pub server: usize,
    /// The number of the job among those of its server, from 0.
    pub seq: u64,
    /// What was sent with the job.
    pub token: T,
}
