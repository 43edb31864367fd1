//! The errors: each is one status of the library, with the library's own text, but for those that only this crate has.

use crate::ffi::{status_text, Status};
use std::error::Error;
use std::fmt;

/// Ends a program to which the library returned what its contract rules out.
#[cold]
pub(crate) fn not_answered(status: Status) -> ! {
    panic!(
        "cbs: this call does not return {:#x}: {}",
        status.0,
        status_text(status.0)
    )
}

/// An error enum whose variants are statuses. Those that stand `beside` them are this crate's alone, each with its text.
macro_rules! errors {
    (
        $(#[$doc:meta])* $name:ident { $($(#[$variant_doc:meta])* $variant:ident = $status:literal,)+ }
        $(beside { $($(#[$own_doc:meta])* $own:ident = $text:literal,)+ })?
    ) => {
        $(#[$doc])*
        #[derive(Clone, Copy, Debug, PartialEq, Eq, Hash)]
        #[non_exhaustive]
        pub enum $name {
            $($(#[$variant_doc])* $variant,)+
            $($($(#[$own_doc])* $own,)+)?
        }

        impl $name {
            /// Returns the status of the interface for C, as in `cbs.h`. An error that only this crate has gives `u32::MAX`, which
            /// is no status there.
            pub fn status(self) -> u32 {
                match self {
                    $($name::$variant => $status,)+
                    $($($name::$own => u32::MAX,)+)?
                }
            }

            #[allow(dead_code)] // one of these enums is never made of a status
            pub(crate) fn of(status: Status) -> $name {
                match status.0 {
                    $($status => $name::$variant,)+
                    _ => not_answered(status),
                }
            }
        }

        impl fmt::Display for $name {
            fn fmt(&self, f: &mut fmt::Formatter<'_>) -> fmt::Result {
                match self {
                    $($($name::$own => f.write_str($text),)+)?
                    _ => f.write_str(&status_text(self.status())),
                }
            }
        }

        impl Error for $name {}
    };
}

errors! {
    /// Why a server is not admitted. The plan is then as it was.
    PlanError {
        /// The budget is 0.
        ZeroBudget = 0x101,
        /// The period is longer than 10^9 ticks.
        PeriodTooLong = 0x102,
        /// The budget is larger than the period.
        BudgetOverPeriod = 0x103,
        /// There are 64 servers already.
        TooManyServers = 0x201,
        /// The least common multiple of all periods would pass 10^18.
        PeriodsTooFine = 0x202,
        /// The sum of budget / period would pass 1.
        OverBound = 0x203,
    }
}

errors! {
    /// Why no house is opened.
    OpenError {
        /// The backlog is not within 1 to 4096 jobs.
        BadBacklog = 0x301,
        /// The ring is not within 1 to 1024 messages.
        BadRing = 0x302,
        /// There is not the memory.
        OutOfMemory = 0x303,
    }
}

errors! {
    /// Why the house refuses.
    HouseError {
        /// The house has no server of that number.
        NoSuchServer = 0x304,
        /// The clock would pass its end, 10^12 ticks.
        ClockEnd = 0x305,
        /// The server did not run the last unit, or a tick has passed since that it was not charged.
        NotRunning = 0x307,
    }
}

errors! {
    /// Why a house is not recorded.
    TapeError {
        /// There is not the memory for a tape.
        OutOfMemory = 0x303,
        /// The house has no tape.
        NoTape = 0x606,
    }
}

errors! {
    /// Why a call that serves ends before all is over. Nothing is lost: it may be called again.
    RunError {
        /// There was no memory for a job, which stays in its ring.
        OutOfMemory = 0x303,
        /// The clock stands at its end, 10^12 ticks.
        ClockEnd = 0x305,
    }
}

errors! {
    /// Why a client sends nothing.
    SendError {
        /// The job has no unit.
        EmptyJob = 0x401,
        /// The job has more than 1,000,000 units.
        TooLong = 0x402,
        /// The client has ended.
        Ended = 0x501,
        /// The ring is full: try again after the house has polled.
        RingFull = 0x502,
        /// The house was dropped: nothing that is sent would be taken.
        HouseGone = 0x605,
    } beside {
        /// The call may wait, and was made in a unit of the same house. The serving thread would wait for itself, so nothing was
        /// sent. [`Client::send`](crate::Client::send) never waits, and may be called there.
        InUnit = "a unit of the house would wait for its own house: send there without waiting",
    }
}

/// A job that was not sent: why, and its token, which is the sender's again.
#[derive(Clone, Copy, PartialEq, Eq)]
pub struct Refused<T> {
    /// Why it was not sent.
    pub error: SendError,
    /// What would have been sent with it.
    pub token: T,
}

impl<T> fmt::Debug for Refused<T> {
    fn fmt(&self, f: &mut fmt::Formatter<'_>) -> fmt::Result {
        f.debug_struct("Refused")
            .field("error", &self.error)
            .finish_non_exhaustive()
    }
}

impl<T> fmt::Display for Refused<T> {
    fn fmt(&self, f: &mut fmt::Formatter<'_>) -> fmt::Result {
        self.error.fmt(f)
    }
}

impl<T> Error for Refused<T> {}

impl<T> From<Refused<T>> for SendError {
    fn from(refused: Refused<T>) -> SendError {
        refused.error
    }
}
