use crate::bell::{Bell, Stopper};
use crate::doing::Doer;
use crate::error::{not_answered, HouseError, RunError, TapeError};
use crate::ffi::{self, kind, Handle, Server, Status};
use crate::live::{Keeper, Live};
use crate::pacer::{nanos, Next, Pacer, Rounding};
use crate::tokens::Tokens;
use crate::unit::{Token, Unfinished, Unit};
use std::sync::Arc;
use std::time::Duration;

/// The serving thread's side: it owns the executor, takes jobs from the rings, and tells which unit is next.
///
/// It may go to another thread. When it is dropped, the tokens of all jobs that are not finished are dropped, and each later
/// send of its clients is refused by [`SendError::HouseGone`](crate::SendError::HouseGone), so that senders end, too.
#[derive(Debug)]
pub struct House<T = u64> {
    handle: Handle,
    servers: Vec<Served<T>>,
    bell: Arc<Bell>,
    doer: Arc<Doer>,
    stopper: Stopper,
    rates: Arc<[Server]>,
    backlog: usize,
    keeper: Option<Keeper>,
    /// How many bytes of memory the tape has.
    tape: usize,
}

/// The jobs of one server, as the crate sees them.
#[derive(Debug)]
struct Served<T> {
    tokens: Arc<Tokens<T>>,
    /// How many jobs had a unit.
    begun: u64,
    /// The token of the job that had a unit and is not finished. Jobs of a server run one after another.
    current: Option<T>,
}

/// What is to be done now.
#[derive(Debug)]
pub enum Ran<'h, T = u64> {
    /// Nothing: nobody was ready. The clock stays.
    Idle,
    /// Nothing: the clock stands at its end, 10^12 ticks, with a job unfinished.
    ClockEnd,
    /// This unit. It took one tick; what it takes beyond that is for the program to [charge](House::charge). If the program
    /// does it by [`Unit::done_by`], it cannot wait for its own house.
    Unit(Unit<'h, T>),
}

/// What a poll did.
#[derive(Clone, Copy, Debug, PartialEq, Eq, Hash)]
#[must_use]
pub enum Poll {
    /// No message was there, or the server is closed.
    Nothing,
    /// It took the next job.
    Took,
    /// It took the end: the server is closed.
    Closed,
    /// A message waits, and the backlog is full.
    Full,
    /// A message waits, and there was no memory for it.
    NoMemory,
}

/// What a turn did.
#[derive(Debug)]
#[must_use]
#[non_exhaustive]
pub struct Turn<'h, T = u64> {
    /// How many messages it took, ends included: at most one of each server.
    pub took: usize,
    /// By how many ticks it advanced, with nobody ready. The tick of a unit is not counted.
    pub advanced: u64,
    /// What is to be done now.
    pub ran: Ran<'h, T>,
    /// Whether there was no memory for some job, which stays in its ring.
    pub out_of_memory: bool,
    /// Whether all is over but the unit that is to be done now: every server is closed, and no job is held.
    pub over: bool,
}

/// What a server shows.
#[derive(Clone, Copy, Debug, PartialEq, Eq)]
#[must_use]
#[non_exhaustive]
pub struct View {
    /// The ticks that it may still use by its deadline.
    pub budget: u64,
    /// Its deadline, a tick.
    pub deadline: u128,
    /// How many jobs it took.
    pub accepted: u64,
    /// How many of them are finished.
    pub finished: u64,
    /// Whether it waits for its deadline.
    pub throttled: bool,
    /// Whether its client's end was taken.
    pub closed: bool,
}

/// What a server was charged for units that took longer than a tick, in ticks.
#[derive(Clone, Copy, Debug, PartialEq, Eq)]
#[must_use]
#[non_exhaustive]
pub struct Charges {
    /// In all.
    pub total: u64,
    /// At most for one unit.
    pub most: u64,
}

/// Why a call that serves has ended.
#[derive(Clone, Copy, Debug, PartialEq, Eq, Hash)]
pub enum Ended {
    /// Every client has ended or is gone, and every job is finished.
    Closed,
    /// It was [told to stop](House::stopper).
    Stopped,
}

fn certain<T>(answer: Result<T, Status>) -> T {
    answer.unwrap_or_else(|status| not_answered(status))
}

fn wide(low: u64, high: u64) -> u128 {
    u128::from(high) << 64 | u128::from(low)
}

/// Returns the number of a server as the library wants it. It has none that does not fit.
fn number(server: usize) -> Result<u16, HouseError> {
    u16::try_from(server).map_err(|_| HouseError::NoSuchServer)
}

impl<T> Served<T> {
    /// Returns the token of the job of this number, which gets a unit.
    fn token(&mut self, seq: u64, last: bool) -> Token<'_, T> {
        if self.current.is_none() {
            // The client puts a token down before it sends.
            self.current = self.tokens.take(seq);
            self.begun = seq + 1;
        }
        Token::of(&mut self.current, last)
    }

    /// Takes the tokens of all jobs that are not finished, with their numbers, once the library's house is gone.
    fn unfinished(&mut self) -> impl Iterator<Item = (u64, T)> + '_ {
        let sent = self.tokens.leave();
        self.tokens.room.ring();
        let current = self.current.take().map(|token| (self.begun - 1, token));
        let begun = std::mem::replace(&mut self.begun, sent);
        let tokens = &self.tokens;
        let others = (begun..sent).filter_map(move |seq| Some((seq, tokens.take(seq)?)));
        current.into_iter().chain(others)
    }
}

impl<T> House<T> {
    pub(crate) fn new(
        handle: Handle,
        tokens: Vec<Arc<Tokens<T>>>,
        bell: Arc<Bell>,
        doer: Arc<Doer>,
        rates: Arc<[Server]>,
        backlog: usize,
    ) -> House<T> {
        let served = |tokens| Served {
            tokens,
            begun: 0,
            current: None,
        };
        House {
            handle,
            servers: tokens.into_iter().map(served).collect(),
            stopper: Stopper::new(Arc::clone(&bell)),
            bell,
            doer,
            rates,
            backlog,
            keeper: None,
            tape: 0,
        }
    }

    /// Returns how many servers it has. They are numbered from 0.
    #[must_use]
    pub fn servers(&self) -> usize {
        self.servers.len()
    }

    /// Returns what tells this house to stop, from any thread: [`run_until_closed`](House::run_until_closed) and
    /// [`Realtime::run`](crate::realtime::Realtime::run) then return.
    #[must_use]
    pub fn stopper(&self) -> Stopper {
        self.stopper.clone()
    }

    /// Returns whether it was told to [stop](House::stopper), and forgets it. It is for a loop of
    /// one's own.
    #[must_use]
    pub fn is_told_to_stop(&self) -> bool {
        self.stopper.is_told()
    }

    /// Returns what wakes it while it sleeps: each send and each end of its clients, and who tells
    /// it to stop.
    #[must_use]
    pub fn bell(&self) -> &Bell {
        &self.bell
    }

    /// Returns the unit of a job, with the job's token. The token is taken out of the house with the `last` unit.
    fn unit(&mut self, unit: ffi::Unit, last: bool) -> Unit<'_, T> {
        let server = usize::from(unit.server);
        Unit {
            server,
            seq: unit.seq,
            token: self.servers[server].token(unit.seq, last),
            doer: &self.doer,
            handle: &mut self.handle,
        }
    }

    /// Wakes the senders who wait for room in a ring.
    fn ring_senders(&self) {
        Bell::ring_each(self.servers.iter().map(|served| &served.tokens.room));
    }

    fn ran(&mut self, unit: ffi::Unit) -> Ran<'_, T> {
        match unit.kind {
            kind::RUN_IDLE => Ran::Idle,
            kind::RUN_CLOCK_END => Ran::ClockEnd,
            kind::RUN_UNIT => Ran::Unit(self.unit(unit, false)),
            kind::RUN_DONE => Ran::Unit(self.unit(unit, true)),
            other => unreachable!("cbs: a unit of kind {other}"),
        }
    }

    /// Takes a turn: polls each server once, and then runs one unit. If nobody is ready and a job is not finished, it
    /// advances the clock by the idle span instead; if no job is there, it leaves the clock alone. No turn takes anybody's
    /// time.
    ///
    /// ```
    /// use cbs::{Mode, Plan, Ran};
    ///
    /// let mut plan = Plan::new();
    /// plan.admit(1, 10, Mode::Throttled)?;
    /// let (mut house, mut clients) = plan.open(4, 4)?;
    /// clients[0].send(7, 2)?;
    /// assert!(matches!(house.turn().ran, Ran::Unit(unit) if *unit.token == 7 && !unit.is_last()));
    /// assert_eq!(house.turn().advanced, 9); // its budget is used up until tick 10
    /// assert!(matches!(house.turn().ran, Ran::Unit(unit) if unit.is_last()));
    /// # Ok::<(), Box<dyn std::error::Error>>(())
    /// ```
    pub fn turn(&mut self) -> Turn<'_, T> {
        let turn = certain(ffi::turn(&mut self.handle));
        if turn.took > 0 {
            self.ring_senders();
        }
        Turn {
            took: turn.took as usize, // at most one of each server
            advanced: turn.advanced,
            ran: self.ran(turn.ran),
            out_of_memory: turn.out_of_memory,
            over: turn.over,
        }
    }

    /// Takes turns until every client has ended or is gone and all jobs are finished, or until it is told to
    /// [stop](House::stopper), and calls `work` with each unit. While there is nothing to do it sleeps, and a send wakes it.
    ///
    /// Nothing is measured, and the clock jumps where all who have a job wait for their deadline. In real time serve by
    /// [`Realtime`](crate::realtime::Realtime).
    ///
    /// # Errors
    ///
    /// [`RunError`]. Nothing is lost: it may be called again.
    ///
    /// ```
    /// use cbs::{Mode, Plan};
    ///
    /// let mut plan = Plan::new();
    /// plan.admit(2, 5, Mode::Soft)?;
    /// let (mut house, mut clients) = plan.open(4, 4)?;
    /// clients[0].send(vec![3, 4], 2)?;
    /// drop(clients);
    /// let mut sum = 0;
    /// house.run_until_closed(|mut unit| sum += unit.token.pop().unwrap_or(0))?;
    /// assert_eq!(sum, 7);
    /// # Ok::<(), Box<dyn std::error::Error>>(())
    /// ```
    pub fn run_until_closed(
        &mut self,
        mut work: impl FnMut(Unit<'_, T>),
    ) -> Result<Ended, RunError> {
        let bell = Arc::clone(&self.bell);
        let mut listens = false;
        while !self.stopper.is_told() {
            let turn = self.turn();
            let (over, out_of_memory) = (turn.over, turn.out_of_memory);
            let idle = turn.took == 0 && turn.advanced == 0 && matches!(turn.ran, Ran::Idle);
            match turn.ran {
                Ran::Unit(unit) => unit.done_by(&mut work),
                Ran::ClockEnd => return Err(RunError::ClockEnd),
                Ran::Idle => {}
            }
            if over {
                return Ok(Ended::Closed);
            }
            if out_of_memory {
                return Err(RunError::OutOfMemory);
            }
            match (idle, listens) {
                (true, false) => bell.listen(), // and one more turn, lest a message came before
                (true, true) => bell.wait(None),
                (false, _) => bell.leave(),
            }
            listens = idle && !listens;
        }
        Ok(Ended::Stopped)
    }

    /// Begins its time in real time, at this reading of its host's clock. Returns the pacer, which
    /// [`next`](House::next) is asked with. A tick is at least a nanosecond long.
    #[must_use]
    pub fn pace(&self, tick: Duration, rounding: Rounding, time: Duration) -> Pacer {
        let carry = rounding == Rounding::Carry;
        let pacer = ffi::pace(&self.handle, nanos(tick), carry, nanos(time));
        Pacer {
            own: certain(pacer),
            taken: 0,
        }
    }

    /// Has the figures of each server kept from now on, as the house runs in real time. Returns what
    /// reads them, from any thread. `names[i]` is the name of server i. If there is none, it is the
    /// server's number.
    ///
    /// They are kept by [`next`](House::next) and [`done`](House::done), and so by
    /// [`Realtime`](crate::realtime::Realtime). A job that was accepted before counts from the first
    /// question on.
    #[must_use]
    pub fn live(&mut self, names: &[&str]) -> Live {
        let keeper = Keeper::new(&self.rates, self.backlog, names);
        self.keeper.insert(keeper).live()
    }

    /// Takes a reading of its host's clock, and returns what the host does next. In this order:
    ///
    /// - The unit that was being done ends. Its server is charged for the time since the last
    ///   reading, unless the program has run or advanced the house by hand since.
    /// - If nobody is ready the ticks pass that are over.
    /// - Each server is polled once. [`Pacer::taken`] tells how many messages came.
    /// - If somebody is ready and the tick of the unit has come, the unit is run.
    ///
    /// So what is [`promised`](House::promised) of a job can be asked right after the question that
    /// took it, once its unit is done. This never waits and reads no clock. A step back of the
    /// clock counts as no time.
    ///
    /// [`Realtime`](crate::realtime::Realtime) is a loop over it. One of one's own:
    ///
    /// ```
    /// use cbs::realtime::{Clock, Monotonic, Next, Rounding};
    /// use cbs::{Mode, Plan};
    /// use std::time::Duration;
    ///
    /// let mut plan = Plan::new();
    /// plan.admit(2, 5, Mode::Throttled)?;
    /// let (mut house, mut clients) = plan.open(4, 4)?;
    /// clients[0].send("wash", 3)?;
    /// drop(clients);
    /// let mut clock = Monotonic::default();
    /// let mut pacer = house.pace(Duration::from_millis(1), Rounding::Up, clock.now());
    /// loop {
    ///     match house.next(&mut pacer, clock.now()) {
    ///         Next::Do(unit) => println!("{}", *unit.token),
    ///         Next::SleepUntil(time) => clock.sleep_until(time),
    ///         Next::Listen => {}
    ///         Next::WaitUntil(time) => clock.wait(house.bell(), time),
    ///         Next::Over | Next::ClockEnd | Next::OutOfMemory => break,
    ///     }
    /// }
    /// assert_eq!(pacer.counts().units, 3);
    /// # Ok::<(), Box<dyn std::error::Error>>(())
    /// ```
    pub fn next(&mut self, pacer: &mut Pacer, time: Duration) -> Next<'_, T> {
        self.ask(pacer, time, None)
    }

    /// Does what [`next`](House::next) does, but charges the unit that was being done the time
    /// `took`, by whatever clock the host took it. More than the time since the last reading is not
    /// charged. What is not charged of that time is nobody's, and the house falls behind by it.
    pub fn next_measured(
        &mut self,
        pacer: &mut Pacer,
        time: Duration,
        took: Duration,
    ) -> Next<'_, T> {
        self.ask(pacer, time, Some(took))
    }

    pub(crate) fn ask(
        &mut self,
        pacer: &mut Pacer,
        time: Duration,
        took: Option<Duration>,
    ) -> Next<'_, T> {
        let (time, took) = (nanos(time), took.map(nanos));
        let next = certain(ffi::next(&mut self.handle, &mut pacer.own, time, took));
        pacer.taken = next.taken as usize; // at most one of each server
        if let Some(keeper) = &mut self.keeper {
            keeper.asked(&self.handle, ffi::counts(&pacer.own).charged, time, &next);
        }
        if next.taken > 0 {
            self.ring_senders();
        }
        let until = Duration::from_nanos(next.until);
        match next.kind {
            kind::NEXT_UNIT => Next::Do(self.unit(next.unit, next.unit.kind == kind::RUN_DONE)),
            kind::NEXT_SLEEP => Next::SleepUntil(until),
            kind::NEXT_LISTEN => {
                self.bell.listen();
                Next::Listen
            }
            kind::NEXT_WAIT => Next::WaitUntil(Some(until).filter(|_| next.until != u64::MAX)),
            kind::NEXT_OVER => Next::Over,
            kind::NEXT_CLOCK_END => Next::ClockEnd,
            kind::NEXT_NO_MEMORY => Next::OutOfMemory,
            other => unreachable!("cbs: what is next has the kind {other}"),
        }
    }

    /// Ends the unit that was being done, at this reading, and charges it as [`next`](House::next)
    /// does. It is for a host that stops asking, for now or for ever.
    pub fn done(&mut self, pacer: &mut Pacer, time: Duration) {
        self.end(pacer, time, None);
    }

    /// Does what [`done`](House::done) does, but charges the time `took`, as
    /// [`next_measured`](House::next_measured) does.
    pub fn done_measured(&mut self, pacer: &mut Pacer, time: Duration, took: Duration) {
        self.end(pacer, time, Some(took));
    }

    pub(crate) fn end(&mut self, pacer: &mut Pacer, time: Duration, took: Option<Duration>) {
        let (time, took) = (nanos(time), took.map(nanos));
        certain(ffi::done(&mut self.handle, &mut pacer.own, time, took));
        if let Some(keeper) = &mut self.keeper {
            keeper.done(ffi::counts(&pacer.own).charged, time);
        }
    }

    /// Takes the next message of one server, if there is one and room for it. What is not taken stays in its ring.
    ///
    /// # Errors
    ///
    /// [`HouseError::NoSuchServer`].
    pub fn poll(&mut self, server: usize) -> Result<Poll, HouseError> {
        let polled = ffi::poll(&mut self.handle, number(server)?).map_err(HouseError::of)?;
        Ok(match polled {
            kind::POLL_NOTHING => Poll::Nothing,
            kind::POLL_TOOK => {
                self.servers[server].tokens.room.ring();
                Poll::Took
            }
            kind::POLL_CLOSED => Poll::Closed,
            kind::POLL_FULL => Poll::Full,
            kind::POLL_NO_MEMORY => Poll::NoMemory,
            other => unreachable!("cbs: a poll with the result {other}"),
        })
    }

    /// Runs: of the servers that are ready, that with the earliest deadline gets a tick; of several, the one with the lowest
    /// number. The program does the unit after the call.
    #[must_use]
    pub fn run(&mut self) -> Ran<'_, T> {
        let unit = certain(ffi::run(&mut self.handle));
        self.ran(unit)
    }

    /// Lets ticks pass in which nothing runs. While somebody is ready that takes the time from the one who is, and no promise
    /// holds then.
    ///
    /// # Errors
    ///
    /// [`HouseError::ClockEnd`] if the clock would pass its end; it stays then.
    pub fn advance(&mut self, ticks: u64) -> Result<(), HouseError> {
        ffi::advance(&mut self.handle, ticks).map_err(HouseError::of)
    }

    /// Charges a server the ticks that its last unit took beyond the first: as many pass, and the server pays for them from
    /// its budgets. So a unit that takes long takes no other server's share. A charge of 0 ticks changes nothing.
    ///
    /// Round up: of a unit that took `took` nanoseconds these are `(took - 1) / tick`. Charge after the unit and before the
    /// next poll. A job that comes between may renew the server, and the new budget pays then.
    /// [`Realtime`](crate::realtime::Realtime) measures and charges by itself.
    ///
    /// # Errors
    ///
    /// [`HouseError::NoSuchServer`]; [`HouseError::NotRunning`], unless the server ran the last unit, and no tick has passed
    /// since but what it was charged for that; [`HouseError::ClockEnd`] if the clock would pass its end. Nothing changed then.
    ///
    /// ```
    /// use cbs::{Mode, Plan, Ran};
    ///
    /// let mut plan = Plan::new();
    /// plan.admit(1, 10, Mode::Throttled)?;
    /// let (mut house, mut clients) = plan.open(4, 4)?;
    /// clients[0].send("wash", 2)?;
    /// if let Ran::Unit(unit) = house.turn().ran {
    ///     let server = unit.server;
    ///     house.charge(server, 3)?; // it took four ticks
    /// }
    /// assert_eq!(house.now(), 4);
    /// assert_eq!(house.view(0)?.deadline, 40); // three periods pay for the three ticks
    /// # Ok::<(), Box<dyn std::error::Error>>(())
    /// ```
    pub fn charge(&mut self, server: usize, ticks: u64) -> Result<(), HouseError> {
        ffi::charge(&mut self.handle, number(server)?, ticks).map_err(HouseError::of)
    }

    /// Ends the job of a server that got the last unit, although it has units left, and returns the job's token. It is
    /// [`Unit::finish`] for a loop that is done with the unit: call it before the house is asked for anything but a charge.
    ///
    /// # Errors
    ///
    /// [`HouseError::NoSuchServer`]; [`HouseError::NotRunning`], unless the server ran the last unit, and no tick has passed
    /// since but what it was charged for that. The same if that unit was the last of its job, or if the server has taken a
    /// job since. Nothing changed then.
    ///
    /// ```
    /// use cbs::{HouseError, Mode, Plan, Ran};
    ///
    /// let mut plan = Plan::new();
    /// plan.admit(2, 4, Mode::Soft)?;
    /// let (mut house, mut clients) = plan.open(4, 4)?;
    /// clients[0].send("frame", 5)?;
    /// assert!(matches!(house.turn().ran, Ran::Unit(unit) if !unit.is_last()));
    /// assert_eq!(house.finish(0)?, "frame"); // it is late: the rest is dropped
    /// assert!(matches!(house.turn().ran, Ran::Idle));
    /// assert_eq!(house.finish(0), Err(HouseError::NotRunning));
    /// # Ok::<(), Box<dyn std::error::Error>>(())
    /// ```
    pub fn finish(&mut self, server: usize) -> Result<T, HouseError> {
        ffi::finish(&mut self.handle, number(server)?).map_err(HouseError::of)?;
        let token = self.servers[server].current.take();
        Ok(token.expect("the house keeps the token of a job that got a unit"))
    }

    /// Tells each step of the house from now on to a new tape: each job that is taken, with its number of units, each unit,
    /// each advance and charge of a tick or more, and each close. The tape has `bytes` and 31 more bytes of memory, and no
    /// other call takes memory for it. A tape that the house had is dropped, with what was not taken.
    ///
    /// A step that finds no room is lost, with all that follow, and the tape keeps those before it. A job that ends early
    /// (by [`Unit::finish`], or by [`House::into_unfinished`]) is lost so, too: no tape can tell it.
    ///
    /// ```
    /// # use cbs::{House, Mode, Plan};
    /// # fn main() -> Result<(), Box<dyn std::error::Error>> {
    /// let mut plan = Plan::new();
    /// plan.admit(2, 5, Mode::Soft)?;
    /// let (mut house, mut clients) = plan.open(4, 4)?;
    /// house.record(1 << 16)?;
    /// clients[0].send(7, 3).unwrap(); // a job of three units
    /// for _ in 0..3 {
    ///     house.turn();
    /// }
    /// let mut tape = Vec::new();
    /// house.end_tape(&mut tape)?;
    /// assert_eq!(tape, [0x40, 3, 0xC2, 4]); // the job, three units in a row, the end
    /// # Ok(())
    /// # }
    /// ```
    ///
    /// Refuses by [`TapeError::OutOfMemory`]: the house is then as before.
    pub fn record(&mut self, bytes: u32) -> Result<(), TapeError> {
        ffi::tape_open(&mut self.handle, bytes).map_err(TapeError::of)?;
        self.tape = bytes as usize + 31;
        Ok(())
    }

    /// Appends what the tape has so far to `out`. The tape then has all its memory again, and is told the steps to come.
    /// What these calls append tells the steps in order.
    pub fn take_tape(&mut self, out: &mut Vec<u8>) -> Result<(), TapeError> {
        let before = out.len();
        out.resize(before + self.tape, 0);
        let taken = self.move_tape(&mut out[before..]);
        out.truncate(before + taken.unwrap_or(0));
        taken.map(|_| ())
    }

    /// Moves what the tape has so far to `out`, which has as much memory as the tape. Returns how many bytes it is.
    pub(crate) fn move_tape(&mut self, out: &mut [u8]) -> Result<usize, TapeError> {
        ffi::tape_take(&mut self.handle, out).map_err(TapeError::of)
    }

    /// Returns whether the tape lost a step, so that it has only those before.
    pub fn tape_lost(&self) -> Result<bool, TapeError> {
        ffi::tape_lost(&self.handle).map_err(TapeError::of)
    }

    /// Appends the rest of the tape to `out`, and the mark of its end, unless it lost a step. The house goes on with no
    /// tape.
    pub fn end_tape(&mut self, out: &mut Vec<u8>) -> Result<(), TapeError> {
        let lost = self.tape_lost()?;
        self.take_tape(out)?;
        if !lost {
            out.push(ffi::TAPE_END);
        }
        self.tape = 0;
        ffi::tape_close(&mut self.handle).map_err(TapeError::of)
    }

    /// Returns the reservations of the servers.
    pub(crate) fn rates(&self) -> &[Server] {
        &self.rates
    }

    /// Returns how many jobs that are not finished a server has at most.
    pub(crate) fn backlog(&self) -> usize {
        self.backlog
    }

    /// Goes on with no tape, and drops the one that it had.
    pub(crate) fn forget_tape(&mut self) {
        self.tape = 0;
        // It refuses only if there is none.
        let _ = ffi::tape_close(&mut self.handle);
    }

    /// Returns what a server was charged.
    ///
    /// # Errors
    ///
    /// [`HouseError::NoSuchServer`].
    pub fn charges(&self, server: usize) -> Result<Charges, HouseError> {
        let charges = ffi::charges(&self.handle, number(server)?);
        let (total, most) = charges.map_err(HouseError::of)?;
        Ok(Charges { total, most })
    }

    /// Returns the clock, in ticks.
    #[must_use]
    pub fn now(&self) -> u64 {
        certain(ffi::now(&self.handle))
    }

    /// Returns the greatest number of ticks before whose last nobody is ready, or `None` if somebody is ready now. If no job
    /// is there it reaches to the clock's end: do not advance by it then.
    #[must_use]
    pub fn idle_span(&self) -> Option<u64> {
        Some(certain(ffi::idle_span(&self.handle))).filter(|&span| span != u64::MAX)
    }

    /// Returns what a server shows.
    ///
    /// # Errors
    ///
    /// [`HouseError::NoSuchServer`].
    pub fn view(&self, server: usize) -> Result<View, HouseError> {
        let view = ffi::view(&self.handle, number(server)?).map_err(HouseError::of)?;
        Ok(View {
            budget: view.budget,
            deadline: wide(view.deadline_low, view.deadline_high),
            accepted: view.accepted,
            finished: view.finished,
            throttled: view.throttled,
            closed: view.closed,
        })
    }

    /// Returns the tick by which all that a server has taken is finished, whatever the others ask for; `None` if nothing is
    /// unfinished.
    ///
    /// The tick is kept if no advance takes anybody's time, before the call or after it, and nothing is charged. With charges
    /// it is kept later: by a period of the server for each budget's ticks that the server is charged after the call, and by
    /// the most that each other server was charged for one unit, added up.
    ///
    /// # Errors
    ///
    /// [`HouseError::NoSuchServer`].
    pub fn promised(&self, server: usize) -> Result<Option<u128>, HouseError> {
        let promised = ffi::promised(&self.handle, number(server)?);
        let (low, high) = promised.map_err(HouseError::of)?;
        Ok(Some(wide(low, high)).filter(|&tick| tick != u128::MAX))
    }

    /// Drops the house, and returns the tokens of all jobs that were not finished, those in the rings too: server by server,
    /// in the order of their sends.
    #[must_use]
    pub fn into_unfinished(mut self) -> Vec<Unfinished<T>> {
        self.leave()
    }

    fn leave(&mut self) -> Vec<Unfinished<T>> {
        self.handle.free();
        let mut all = Vec::new();
        for (server, served) in self.servers.iter_mut().enumerate() {
            let unfinished = served.unfinished();
            all.extend(unfinished.map(|(seq, token)| Unfinished { server, seq, token }));
        }
        all
    }
}

impl<T> Drop for House<T> {
    fn drop(&mut self) {
        drop(self.leave());
    }
}
