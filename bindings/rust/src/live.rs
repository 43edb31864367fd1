//! Live figures of a house: of the jobs and the units of each server, as the house runs.
//!
//! ```
//! use cbs::realtime::Realtime;
//! use cbs::{Mode, Plan};
//! use std::time::Duration;
//!
//! let mut plan = Plan::new();
//! plan.admit(2, 5, Mode::Soft)?;
//! plan.admit(1, 10, Mode::Throttled)?;
//! let (mut house, mut clients) = plan.open(16, 16)?;
//! clients[0].send("wash", 3)?;
//! drop(clients);
//!
//! let live = house.live(&["control", "video"]); // of any thread: it is Clone, Send and Sync
//! Realtime::new(&mut house, Duration::from_millis(1)).run(|_| {})?;
//! assert_eq!(live.read(0)?.units, 3);
//! println!("{live}"); // a table
//! # Ok::<(), Box<dyn std::error::Error>>(())
//! ```

use crate::error::HouseError;
use crate::ffi::{self, kind, Handle, Server};
use std::fmt;
use std::sync::{Arc, Mutex, MutexGuard, PoisonError};

/// A summary of numbers, in a memory that stays the same. No number passes `u64::MAX`: it stops
/// there.
///
/// ```
/// use cbs::live::Spread;
///
/// let mut spread = Spread::default();
/// [3, 5, 40].map(|number| spread.add(number));
/// assert_eq!((spread.count, spread.least, spread.greatest), (3, 3, 40));
/// assert_eq!((spread.mean(), spread.at_most(500)), (16, 7));
/// ```
#[repr(C)]
#[derive(Clone, Copy, Debug, PartialEq, Eq)]
pub struct Spread {
    /// How many numbers there are.
    pub count: u64,
    /// Their sum.
    pub total: u64,
    /// The least of them, 0 if there is none.
    pub least: u64,
    /// The greatest of them, 0 if there is none.
    pub greatest: u64,
    /// How many of them are of each power. A 0 is of power 0. Another number is of power k if it is
    /// below 2^k and not below 2^(k - 1).
    pub powers: [u64; 65],
}

impl Default for Spread {
    /// Returns the summary of no numbers.
    fn default() -> Spread {
        Spread {
            count: 0,
            total: 0,
            least: 0,
            greatest: 0,
            powers: [0; 65],
        }
    }
}

impl Spread {
    /// Adds one more number.
    pub fn add(&mut self, number: u64) {
        ffi::spread_add(self, number);
    }

    /// Returns the mean, rounded down, and 0 if there is no number.
    #[must_use]
    pub fn mean(&self) -> u64 {
        ffi::spread_mean(self)
    }

    /// Returns a number such that at least so many of a thousand numbers are at most it: 990 asks
    /// for that of 99 %. It is the least such one of 0, 1, 3, 7, 15 .., or the greatest number, if
    /// that is less. More than 1000 count as 1000.
    #[must_use]
    pub fn at_most(&self, per_mille: u64) -> u64 {
        ffi::spread_at_most(self, per_mille)
    }
}

/// The figures of one server. No number passes `u64::MAX`: it stops there.
#[repr(C)]
#[derive(Clone, Copy, Debug, Default, PartialEq, Eq)]
pub struct Figures {
    /// By how many ticks the house's clock went on.
    pub ticks: u64,
    /// How many jobs were accepted.
    pub accepted: u64,
    /// How many units have ended.
    pub units: u64,
    /// How many ticks were charged for them.
    pub charged: u64,
    /// Of the jobs that are done, in nanoseconds: from the question that took the job from its ring
    /// to the end of its last unit. What it waited in its ring before is not in it.
    pub responses: Spread,
    /// Of the units that have ended, in ticks: by how much the house's clock, after the unit and
    /// its charge, was past the deadline by which the unit was chosen. 0 if it was not.
    pub lateness: Spread,
}

impl Figures {
    /// Returns the share of the server: how many of a thousand ticks of the house's clock were
    /// those of its units or charged for these. It is rounded down, and 0 if there is no tick.
    #[must_use]
    pub fn share(&self) -> u64 {
        ffi::figures_share(self)
    }

    /// Returns how many units ended after the deadline by which they were chosen.
    #[must_use]
    pub fn late(&self) -> u64 {
        self.lateness.count.saturating_sub(self.lateness.powers[0])
    }
}

/// Reads the figures of each server of a house, from any thread, as the house runs.
/// [`House::live`](crate::House::live) has them kept. Printed it is a table of all servers.
///
/// It may outlive the house.
#[derive(Clone)]
pub struct Live {
    shared: Arc<Shared>,
}

struct Shared {
    names: Vec<String>,
    kept: Mutex<Kept>,
}

struct Kept {
    /// By how many ticks the house's clock went on.
    ticks: u64,
    figures: Vec<Figures>,
}

impl Live {
    /// Returns how many servers there are. They are numbered from 0.
    #[must_use]
    pub fn servers(&self) -> usize {
        self.shared.names.len()
    }

    /// Returns the name of a server, if there is such a server.
    #[must_use]
    pub fn name(&self, server: usize) -> Option<&str> {
        self.shared.names.get(server).map(String::as_str)
    }

    /// Returns the figures of a server as they stand. A lock is held for this copy.
    ///
    /// # Errors
    ///
    /// [`HouseError::NoSuchServer`].
    pub fn read(&self, server: usize) -> Result<Figures, HouseError> {
        let kept = self.kept();
        let figures = kept.figures.get(server).ok_or(HouseError::NoSuchServer)?;
        Ok(Figures {
            ticks: kept.ticks,
            ..*figures
        })
    }

    fn kept(&self) -> MutexGuard<'_, Kept> {
        let kept = self.shared.kept.lock();
        kept.unwrap_or_else(PoisonError::into_inner)
    }
}

impl fmt::Display for Live {
    /// Writes a line for each server: the jobs that are done, and the share of the house's ticks.
    /// The least, the mean and the greatest response, and a bound that 99 % of the responses keep.
    /// How many units were late, and by how many ticks at most.
    fn fmt(&self, f: &mut fmt::Formatter<'_>) -> fmt::Result {
        let ms = |nanos: u64| nanos as f64 / 1e6;
        write!(
            f,
            "{:14} {:>9} {:>7} {:>10} {:>10} {:>10} {:>11} {:>10} {:>10}",
            "server",
            "jobs done",
            "share",
            "least ms",
            "mean ms",
            "99 % ms",
            "greatest ms",
            "late units",
            "most ticks",
        )?;
        for (server, name) in self.shared.names.iter().enumerate() {
            let of = self.read(server).map_err(|_| fmt::Error)?;
            let (responses, share) = (of.responses, of.share());
            write!(
                f,
                "\n{name:14} {:>9} {:>4}.{} % {:>9.3} {:>10.3} {:>10.3} {:>11.3} {:>10} {:>10}",
                responses.count,
                share / 10,
                share % 10,
                ms(responses.least),
                ms(responses.mean()),
                ms(responses.at_most(990)),
                ms(responses.greatest),
                of.late(),
                of.lateness.greatest,
            )?;
        }
        Ok(())
    }
}

impl fmt::Debug for Live {
    fn fmt(&self, f: &mut fmt::Formatter<'_>) -> fmt::Result {
        f.debug_struct("Live")
            .field("names", &self.shared.names)
            .finish_non_exhaustive()
    }
}

/// Keeps the figures of a house, on the serving thread.
#[derive(Debug)]
pub(crate) struct Keeper {
    live: Live,
    rates: Arc<[Server]>,
    /// When each unfinished job was accepted: a ring for each server.
    came: Vec<Vec<u64>>,
    /// What the house's clock showed when the figures began.
    first: Option<u64>,
    doing: Option<Doing>,
    /// What was charged in all, as seen last.
    charged: u64,
}

/// A unit that is being done.
#[derive(Clone, Copy, Debug)]
struct Doing {
    unit: ffi::Unit,
    /// What its server showed, and the house's clock, after it was told.
    view: ffi::View,
    clock: u64,
}

impl Keeper {
    pub(crate) fn new(rates: &Arc<[Server]>, backlog: usize, names: &[&str]) -> Keeper {
        let name = |server: usize| names.get(server).map(|&name| name.to_owned());
        let servers = 0..rates.len();
        let shared = Shared {
            names: (servers.map(|server| name(server).unwrap_or_else(|| server.to_string())))
                .collect(),
            kept: Mutex::new(Kept {
                ticks: 0,
                figures: vec![Figures::default(); rates.len()],
            }),
        };
        Keeper {
            live: Live {
                shared: Arc::new(shared),
            },
            rates: Arc::clone(rates),
            came: vec![vec![0; backlog]; rates.len()],
            first: None,
            doing: None,
            charged: 0,
        }
    }

    pub(crate) fn live(&self) -> Live {
        self.live.clone()
    }

    /// Notes what came of a question at this time. So much was charged in all.
    pub(crate) fn asked(&mut self, house: &Handle, charged: u64, time: u64, next: &ffi::Next) {
        let live = self.live.clone();
        let mut kept = live.kept();
        self.end(&mut kept, charged, time);
        if next.taken > 0 || self.first.is_none() {
            self.accepted(&mut kept, house, time);
        }
        self.told(&mut kept, house, next);
    }

    /// Notes that nothing more is asked for now. So much was charged in all.
    pub(crate) fn done(&mut self, charged: u64, time: u64) {
        let live = self.live.clone();
        self.end(&mut live.kept(), charged, time);
    }

    /// Notes the end of the unit that was being done, if one was.
    fn end(&mut self, kept: &mut Kept, charged: u64, time: u64) {
        let ticks = charged.saturating_sub(std::mem::replace(&mut self.charged, charged));
        if let Some(Doing { unit, view, clock }) = self.doing.take() {
            let server = usize::from(unit.server);
            let late = ffi::lateness(&self.rates[server], &view, clock, ticks);
            let (figures, came) = (&mut kept.figures[server], &self.came[server]);
            ffi::figures_ended(figures, came, &unit, time, ticks, late);
            kept.ticks = clock + ticks - self.first.unwrap_or(0);
        }
    }

    /// Notes which jobs were accepted by a question at this time.
    fn accepted(&mut self, kept: &mut Kept, house: &Handle, time: u64) {
        let servers = kept.figures.iter_mut().zip(&mut self.came);
        for (number, (figures, came)) in (0..).zip(servers) {
            if let Ok(view) = ffi::view(house, number) {
                ffi::figures_accepted(figures, came, view.accepted, time);
            }
        }
    }

    /// Notes the unit that was told, if one was, and how far the house's clock went on.
    fn told(&mut self, kept: &mut Kept, house: &Handle, next: &ffi::Next) {
        let clock = match ffi::now(house) {
            Ok(clock) => clock,
            Err(_) => return,
        };
        let unit = Some(next.unit).filter(|_| next.kind == kind::NEXT_UNIT);
        let before = clock - u64::from(unit.is_some()); // without the unit that is being done
        kept.ticks = before - *self.first.get_or_insert(before);
        self.doing = unit.and_then(|unit| {
            let view = ffi::view(house, unit.server).ok()?;
            Some(Doing { unit, view, clock })
        });
    }
}
