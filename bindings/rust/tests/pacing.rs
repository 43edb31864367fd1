//! A house in real time, by a clock of the tests: overruns of every length, clocks that jump, senders that never come, that die.
//!
//! A tick is a millisecond. Times are in microseconds.

use cbs::realtime::{Clock, Counts, Realtime, Rounding};
use cbs::{Bell, Client, Ended, House, Mode, Plan, RunError, Unit};
use std::cell::{Cell, RefCell};
use std::rc::Rc;
use std::time::Duration;

const TICK: Duration = Duration::from_millis(1);

fn micros(time: u64) -> Duration {
    Duration::from_micros(time)
}

/// What happens at a time: a send, an end, a drop.
type Event = (Duration, Box<dyn FnOnce()>);

/// A clock that stands unless somebody waits, or works.
#[derive(Clone, Default)]
struct Fake {
    now: Rc<Cell<Duration>>,
    events: Rc<RefCell<Vec<Event>>>,
    /// How often somebody waited for a bell.
    waits: Rc<Cell<u32>>,
}

impl Fake {
    /// A unit of so long is done.
    fn work(&self, time: Duration) {
        self.now.set(self.now.get() + time);
    }

    fn at(&self, time: u64, event: impl FnOnce() + 'static) {
        self.events
            .borrow_mut()
            .push((micros(time), Box::new(event)));
        self.events.borrow_mut().sort_by_key(|&(time, _)| time);
    }

    /// Lets the next event happen, if there is one by that time. Returns whether there was.
    fn happens(&self, until: Option<Duration>) -> bool {
        let first = self.events.borrow().first().map(|&(time, _)| time);
        match first {
            Some(time) if until.map_or(true, |until| time <= until) => {
                let (time, event) = self.events.borrow_mut().remove(0);
                self.now.set(self.now.get().max(time));
                event();
                true
            }
            _ => false,
        }
    }
}

impl Clock for Fake {
    fn now(&mut self) -> Duration {
        self.now.get()
    }

    fn sleep_until(&mut self, time: Duration) {
        while self.happens(Some(time)) {}
        self.now.set(self.now.get().max(time));
    }

    fn wait(&mut self, bell: &Bell, until: Option<Duration>) {
        self.waits.set(self.waits.get() + 1);
        if self.happens(until) {
            bell.wait(Some(Duration::ZERO)); // it was rung: nobody else would wake a house
        } else {
            self.now.set(
                until
                    .expect("the house would wait for ever")
                    .max(self.now.get()),
            );
        }
    }
}

fn open<T>(servers: &[(u64, u64, Mode)]) -> (House<T>, Vec<Client<T>>) {
    let mut plan = Plan::new();
    for &(budget, period, mode) in servers {
        plan.admit(budget, period, mode).unwrap();
    }
    plan.open(16, 16).unwrap()
}

/// One server that may have all the time, and nobody waits.
fn alone() -> (House<u64>, Client<u64>) {
    let (house, mut clients) = open(&[(1, 1, Mode::Soft)]);
    (house, clients.remove(0))
}

/// Runs a job of units of these lengths, and returns the ticks at which they began, the clock at the end and the counts.
fn run_units(lengths: &[u64], rounding: Rounding) -> (Vec<u64>, u64, Counts) {
    let (mut house, mut client) = alone();
    client.send(0, lengths.len() as u32).unwrap();
    drop(client);
    let fake = Fake::default();
    let mut began = Vec::new();
    let mut realtime = Realtime::with_clock(&mut house, TICK, fake.clone()).rounding(rounding);
    let ended = realtime.run(|_unit| {
        began.push(fake.now.get().as_micros() as u64);
        fake.work(micros(lengths[began.len() - 1]));
    });
    assert_eq!(ended, Ok(Ended::Closed));
    let counts = realtime.counts();
    (began, house.now(), counts)
}

// A unit is charged what it took beyond a tick, rounded up; the next begins with the next tick of the real clock.
#[test]
fn overruns_of_every_length_are_rounded_up() {
    for (length, charge, overruns) in [
        (0, 0, 0),
        (1, 0, 0),
        (300, 0, 0),
        (999, 0, 0),
        (1000, 0, 0),
        (1001, 1, 1),
        (1990, 1, 1),
        (2000, 1, 1),
        (2001, 2, 1),
        (20_000, 19, 1),
        (3_600_000_000, 3_599_999, 1),
    ] {
        let (began, now, counts) = run_units(&[length, 10], Rounding::Up);
        let next = (1 + charge) * 1000;
        assert_eq!(began, [0, next], "a unit of {length} us");
        assert_eq!(now, charge + 2);
        assert_eq!((counts.charged, counts.overruns), (charge, overruns));
        assert_eq!(counts.longest, micros(length.max(10)));
        assert_eq!((counts.units, counts.behind, counts.most_behind), (2, 0, 0));
    }
}

// By hand: of three units of 1.99 ticks 0.99 are beyond the tick each. 0 are charged, then 1 of 1.98, then 1 of 1.97. So 0.97 are
// left after 5 ticks, and 5.97 are over in truth: the house is behind by less than a tick.
#[test]
fn what_is_carried_is_charged_later() {
    let (began, now, counts) = run_units(&[1990, 1990, 1990], Rounding::Carry);
    assert_eq!(began, [0, 1990, 3980]);
    assert_eq!((now, counts.charged, counts.overruns), (5, 2, 3));
    let (_, now, counts) = run_units(&[1500; 100], Rounding::Carry);
    assert_eq!((now, counts.charged), (150, 50));
    assert_eq!(counts.most_behind, 0); // at most half a tick
    let (began, now, _) = run_units(&[300; 4], Rounding::Carry);
    assert_eq!((began, now), (vec![0, 1000, 2000, 3000], 4));
}

#[test]
fn each_server_carries_its_own() {
    let (mut house, mut clients) = open::<u64>(&[(1, 2, Mode::Soft), (1, 2, Mode::Soft)]);
    for client in &mut clients {
        client.send(0, 2).unwrap();
    }
    drop(clients);
    let fake = Fake::default();
    Realtime::with_clock(&mut house, TICK, fake.clone())
        .rounding(Rounding::Carry)
        .run(|unit| fake.work(micros(if unit.server == 0 { 1600 } else { 100 })))
        .unwrap();
    assert_eq!(house.charges(0).unwrap().total, 1); // 0.6 and 0.6
    assert_eq!(house.charges(1).unwrap().total, 0);
}

// A budget of 1 tick in 10: the second unit waits for tick 10, and the third, after one of 3 ticks, for 40.
#[test]
fn throttled_servers_wait_in_real_time() {
    let (mut house, mut clients) = open::<u64>(&[(1, 10, Mode::Throttled)]);
    clients[0].send(0, 3).unwrap();
    drop(clients);
    let fake = Fake::default();
    let mut began = Vec::new();
    let mut realtime = Realtime::with_clock(&mut house, TICK, fake.clone());
    realtime
        .run(|_unit| {
            began.push(fake.now.get());
            fake.work(micros([200, 3000, 200][began.len() - 1]));
        })
        .unwrap();
    assert_eq!(began, [micros(0), micros(10_000), micros(40_000)]);
    assert_eq!(fake.waits.get(), 2); // once for each deadline
    assert_eq!(house.now(), 41);
}

// The house sleeps until each send, and the ticks meanwhile are nobody's.
#[test]
fn a_send_wakes_an_idle_house() {
    let (mut house, client) = alone();
    let client = Rc::new(RefCell::new(Some(client)));
    let fake = Fake::default();
    for time in [2500, 7300, 1_000_000] {
        let client = Rc::clone(&client);
        fake.at(time, move || {
            client.borrow_mut().as_mut().unwrap().send(time, 1).unwrap();
        });
    }
    fake.at(2_000_100, move || drop(client.take()));
    let mut taken = Vec::new();
    let mut realtime = Realtime::with_clock(&mut house, TICK, fake.clone());
    let ended = realtime.run(|unit| {
        assert_eq!(fake.now.get(), micros(*unit.token));
        taken.push(*unit.token);
    });
    assert_eq!(ended, Ok(Ended::Closed));
    assert_eq!(taken, [2500, 7300, 1_000_000]);
    assert_eq!(fake.waits.get(), 4);
    assert_eq!(realtime.counts().most_behind, 0);
    assert_eq!(house.now(), 2000);
}

#[test]
fn a_send_is_taken_while_somebody_is_throttled() {
    let (mut house, mut clients) = open::<u64>(&[(1, 10, Mode::Throttled), (1, 10, Mode::Soft)]);
    clients[0].send(0, 2).unwrap();
    let mut second = clients.pop().unwrap();
    drop(clients);
    let fake = Fake::default();
    fake.at(4200, move || {
        second.send(1, 1).unwrap();
    });
    let mut began = Vec::new();
    Realtime::with_clock(&mut house, TICK, fake.clone())
        .run(|unit| began.push((unit.server, fake.now.get())))
        .unwrap();
    assert_eq!(
        began,
        [(0, micros(0)), (1, micros(4200)), (0, micros(10_000))]
    );
}

// The clock jumps by a second while nobody is ready, and then while a job waits. The ticks of the first are nobody's; those of the
// second are caught up by units that follow each other at once.
#[test]
fn a_clock_that_jumps_ahead() {
    let (mut house, mut client) = alone();
    let fake = Fake::default();
    let now = Rc::clone(&fake.now);
    fake.at(500, move || {
        now.set(micros(1_000_500));
        client.send(0, 5).unwrap();
    });
    let jumps = Rc::clone(&fake.now);
    let mut began = Vec::new();
    let mut realtime = Realtime::with_clock(&mut house, TICK, Jumping(fake.clone(), 2, 3000));
    realtime
        .run(|_unit| began.push(jumps.get().as_micros()))
        .unwrap();
    assert_eq!(
        began,
        [1_000_500, 1_001_000, 1_005_000, 1_005_000, 1_005_000]
    );
    assert_eq!(realtime.counts().most_behind, 3);
    assert_eq!(realtime.counts().charged, 0);
    assert_eq!(realtime.counts().behind, 0);
}

/// A clock that jumps by so many microseconds after it has slept so often.
struct Jumping(Fake, u32, u64);

impl Clock for Jumping {
    fn now(&mut self) -> Duration {
        self.0.now()
    }

    fn sleep_until(&mut self, time: Duration) {
        self.0.sleep_until(time);
        self.1 -= u32::from(self.1 > 0);
        if self.1 == 0 {
            self.0.work(micros(std::mem::take(&mut self.2)));
        }
    }

    fn wait(&mut self, bell: &Bell, until: Option<Duration>) {
        self.0.wait(bell, until);
    }
}

// A jump within a unit cannot be told from a long unit: it is charged.
#[test]
fn a_jump_within_a_unit_is_charged() {
    let (began, now, counts) = run_units(&[10, 5_000_000, 10], Rounding::Up);
    assert_eq!(began, [0, 1000, 5_001_000]);
    assert_eq!((now, counts.charged), (5002, 4999));
}

// A step back counts as no time, within a unit and between two, and nobody waits until the old time has come again.
#[test]
fn a_clock_that_steps_back() {
    let (mut house, mut client) = alone();
    client.send(0, 4).unwrap();
    drop(client);
    let fake = Fake::default();
    fake.now.set(micros(1_000_000));
    let mut began = Vec::new();
    let mut realtime = Realtime::with_clock(&mut house, TICK, fake.clone());
    realtime
        .run(|_unit| {
            began.push(fake.now.get().as_micros());
            if began.len() == 2 {
                fake.now.set(micros(400_000));
            }
        })
        .unwrap();
    assert_eq!(began, [1_000_000, 1_001_000, 401_000, 402_000]);
    assert_eq!(realtime.counts().overruns, 0);
    assert_eq!(house.now(), 4);
}

// Nobody ever sends. The house waits, and does not spin, until it is told to stop; then it may go on.
#[test]
fn senders_that_never_come() {
    let (mut house, client) = alone();
    let fake = Fake::default();
    let stopper = house.stopper();
    let again = stopper.clone();
    fake.at(3_600_000_000, move || stopper.stop());
    fake.at(3_600_500_000, move || again.stop());
    let mut realtime = Realtime::with_clock(&mut house, TICK, fake.clone());
    for hours in 0..2 {
        assert_eq!(realtime.run(|_unit| unreachable!()), Ok(Ended::Stopped));
        assert_eq!(fake.waits.get(), hours + 1);
    }
    drop(client);
    assert_eq!(realtime.run(|_unit| unreachable!()), Ok(Ended::Closed));
    assert_eq!(house.now(), 3_600_500);
}

// A sender dies with two jobs in its ring, at a full ring, and one while the house is idle: each ends its server.
#[test]
fn senders_that_die() {
    let mut plan = Plan::new();
    plan.admit(1, 2, Mode::Soft).unwrap();
    plan.admit(1, 2, Mode::Throttled).unwrap();
    let (mut house, mut clients) = plan.open::<u64>(1, 2).unwrap();
    let second = clients.pop().unwrap();
    let mut first = clients.pop().unwrap();
    first.send(1, 1).unwrap();
    first.send(2, 1).unwrap();
    drop(first);
    let fake = Fake::default();
    fake.at(50_000, move || drop(second));
    let mut done = Vec::new();
    let mut realtime = Realtime::with_clock(&mut house, TICK, fake.clone());
    let ended = realtime.run(|unit| done.extend(unit.into_token()));
    assert_eq!((ended, done), (Ok(Ended::Closed), vec![1, 2]));
    assert!(house.view(0).unwrap().closed && house.view(1).unwrap().closed);
}

#[test]
fn the_clocks_end_is_told() {
    let (mut house, mut client) = alone();
    house.advance(999_999_999_999).unwrap();
    client.send(0, 2).unwrap();
    let fake = Fake::default();
    let mut realtime = Realtime::with_clock(&mut house, TICK, fake.clone());
    let ended = realtime.run(|_unit| fake.work(micros(10)));
    assert_eq!(ended, Err(RunError::ClockEnd));
    assert_eq!(realtime.counts().units, 1);
}

#[test]
fn a_charge_past_the_clocks_end_is_told() {
    let (mut house, mut client) = alone();
    house.advance(999_999_999_900).unwrap();
    client.send(0, 2).unwrap();
    let fake = Fake::default();
    let mut realtime = Realtime::with_clock(&mut house, TICK, fake.clone());
    let ended = realtime.run(|_unit| fake.work(micros(1_000_000)));
    assert_eq!(ended, Err(RunError::ClockEnd));
}

// What was done before counts: a job is in progress, and one server is closed.
#[test]
fn a_house_that_was_served_before_goes_on() {
    let (mut house, mut clients) = open::<u64>(&[(1, 2, Mode::Soft), (1, 2, Mode::Soft)]);
    clients[0].send(7, 3).unwrap();
    drop(clients);
    assert!(!house.turn().over); // the first unit; the second server is closed
    let fake = Fake::default();
    let mut seen = Vec::new();
    let work = |unit: Unit<'_, u64>| seen.push((*unit.token, unit.is_last()));
    let ended = Realtime::with_clock(&mut house, TICK, fake).run(work);
    assert_eq!(ended, Ok(Ended::Closed));
    assert_eq!(seen, [(7, false), (7, true)]);
    let fake = Fake::default();
    let mut again = Realtime::with_clock(&mut house, TICK, fake);
    assert_eq!(again.run(|_unit| unreachable!()), Ok(Ended::Closed));
}

// The work of a unit may stop the house: no other unit is done.
#[test]
fn a_unit_stops_the_house() {
    let (mut house, mut client) = alone();
    client.send(0, 5).unwrap();
    let stopper = house.stopper();
    let mut units = 0;
    let mut realtime = Realtime::with_clock(&mut house, TICK, Fake::default());
    let ended = realtime.run(|_unit| {
        units += 1;
        stopper.stop();
    });
    assert_eq!((ended, units), (Ok(Ended::Stopped), 1));
    assert_eq!(realtime.house().view(0).unwrap().accepted, 1);
    let unfinished = house.into_unfinished();
    assert_eq!(unfinished.len(), 1);
    assert_eq!((unfinished[0].seq, unfinished[0].token), (0, 0));
}
