//! Units that panic, by a clock of the tests: each is charged and counted, and the panic passed on.
//!
//! A tick is a millisecond. Greedy has 1 tick in 10, throttled, and each of its units takes 20 ms.

use cbs::realtime::{Clock, Realtime};
use cbs::{Bell, Client, Ended, House, Mode, Plan, Stopper, Unit};
use std::cell::Cell;
use std::panic::{catch_unwind, panic_any, resume_unwind, AssertUnwindSafe};
use std::rc::Rc;
use std::time::Duration;

const TICK: Duration = Duration::from_millis(1);
const LENGTH: Duration = Duration::from_secs(10);

const GREEDY: usize = 0;

fn millis(time: u64) -> Duration {
    Duration::from_millis(time)
}

/// A clock that stands unless somebody waits or works. After ten seconds it tells the house to
/// stop.
#[derive(Clone)]
struct Fake {
    now: Rc<Cell<Duration>>,
    /// What the thread worked, if units are charged by that.
    worked: Rc<Cell<Option<Duration>>>,
    stopper: Stopper,
}

impl Fake {
    fn new<T>(house: &House<T>) -> Fake {
        Fake {
            now: Rc::default(),
            worked: Rc::default(),
            stopper: house.stopper(),
        }
    }

    fn passes_until(&self, time: Duration) {
        self.now.set(self.now.get().max(time));
        if self.now.get() >= LENGTH {
            self.stopper.stop();
        }
    }

    fn work(&self, time: Duration) {
        self.passes_until(self.now.get() + time);
    }
}

impl Clock for Fake {
    fn now(&mut self) -> Duration {
        self.now.get()
    }

    fn sleep_until(&mut self, time: Duration) {
        self.passes_until(time);
    }

    fn wait(&mut self, _bell: &Bell, until: Option<Duration>) {
        self.passes_until(until.expect("somebody has a job"));
    }

    fn worked(&mut self) -> Option<Duration> {
        self.worked.get()
    }
}

/// A house with greedy and, if there are two servers, a client with 9 ticks in 10. Both have more
/// to do than ten seconds.
fn open(servers: usize) -> (House<u64>, Vec<Client<u64>>) {
    let mut plan = Plan::new();
    plan.admit(1, 10, Mode::Throttled).unwrap();
    if servers == 2 {
        plan.admit(9, 10, Mode::Soft).unwrap();
    }
    let (house, mut clients) = plan.open(4, 4).unwrap();
    for client in &mut clients {
        client.send(0, 1_000_000).unwrap();
    }
    (house, clients)
}

/// Serves until the house is told to stop. After each unit that panics it is served again. Returns
/// how many did.
fn serves(
    realtime: &mut Realtime<'_, u64, Fake>,
    mut work: impl FnMut(Unit<'_, u64>),
    steps: bool,
) -> u64 {
    let mut panicked = 0;
    loop {
        let served = catch_unwind(AssertUnwindSafe(|| {
            if steps {
                realtime.step(&mut work)
            } else {
                realtime.run(&mut work).map(Some)
            }
        }));
        match served {
            Ok(ended) => match ended.unwrap() {
                Some(ended) => {
                    assert_eq!(ended, Ended::Stopped);
                    return panicked;
                }
                None => assert!(steps),
            },
            Err(_) => {
                panicked += 1;
                let charges = realtime.house().charges(GREEDY).unwrap();
                assert_eq!(charges.total, 19 * panicked); // at once
            }
        }
    }
}

// A unit is paid by 20 periods, so there is one each 200 ms, ten per cent of the time.
#[test]
fn units_that_panic_are_charged() {
    for steps in [false, true] {
        let (mut house, _clients) = open(1);
        let fake = Fake::new(&house);
        let mut began = Vec::new();
        let mut realtime = Realtime::with_clock(&mut house, TICK, fake.clone());
        let work = |_unit: Unit<'_, u64>| {
            began.push(fake.now.get());
            fake.work(millis(20));
            resume_unwind(Box::new("a unit fails")); // a panic of which nothing is printed
        };
        assert_eq!(serves(&mut realtime, work, steps), 50);
        let counts = realtime.counts();
        assert_eq!(
            (counts.units, counts.overruns, counts.charged),
            (50, 50, 950)
        );
        assert_eq!((counts.longest, counts.most_behind), (millis(20), 0));
        assert_eq!(
            began,
            (0..50).map(|unit| millis(200 * unit)).collect::<Vec<_>>()
        );
        assert!(millis(20 * 50) * 100 <= fake.now.get() * 12);
    }
}

#[test]
fn units_that_panic_take_nothing_from_others() {
    let (mut house, _clients) = open(2);
    let fake = Fake::new(&house);
    let mut took = [Duration::ZERO; 2];
    let mut realtime = Realtime::with_clock(&mut house, TICK, fake.clone());
    let work = |unit: Unit<'_, u64>| {
        let length = millis(if unit.server == GREEDY { 20 } else { 1 });
        took[unit.server] += length;
        fake.work(length);
        if unit.server == GREEDY {
            resume_unwind(Box::new("a unit fails"));
        }
    };
    let panicked = serves(&mut realtime, work, false);
    assert!(took[GREEDY] * 100 <= fake.now.get() * 12);
    assert_eq!(took[0] + took[1], fake.now.get()); // nobody waited
    assert_eq!(took[GREEDY], millis(20 * panicked));
    assert_eq!(realtime.counts().overruns, panicked);
}

// By its own measure such a unit takes 1.5 ticks, and one is charged.
#[test]
fn a_unit_that_panics_is_charged_by_its_own_measure() {
    let (mut house, _clients) = open(1);
    let fake = Fake::new(&house);
    fake.worked.set(Some(Duration::ZERO));
    let mut realtime = Realtime::with_clock(&mut house, TICK, fake.clone());
    let panicked = catch_unwind(AssertUnwindSafe(|| {
        realtime.run(|_unit| {
            fake.work(millis(20));
            fake.worked.set(Some(Duration::from_micros(1500)));
            resume_unwind(Box::new("a unit fails"));
        })
    }));
    assert!(panicked.is_err());
    let counts = realtime.counts();
    assert_eq!((counts.units, counts.charged), (1, 1));
    assert_eq!(counts.longest, Duration::from_micros(1500));
}

// What it panics with is passed on, and the token of its last unit is dropped with it. The other
// job goes on.
#[test]
fn a_panic_is_passed_on_as_it_is() {
    let mut plan = Plan::new();
    plan.admit(1, 1, Mode::Soft).unwrap();
    let (mut house, mut clients) = plan.open(4, 4).unwrap();
    let tokens = [Rc::new("fails"), Rc::new("goes on")];
    for token in &tokens {
        clients[0].send(Rc::clone(token), 1).unwrap();
    }
    drop(clients);
    let fake = Fake::new(&house);
    let mut realtime = Realtime::with_clock(&mut house, TICK, fake);
    let mut done = Vec::new();
    let mut work = |unit: Unit<'_, Rc<&'static str>>| {
        if **unit.token == "fails" {
            panic_any(7_u8);
        }
        done.extend(unit.into_token());
    };
    let panicked = catch_unwind(AssertUnwindSafe(|| realtime.run(&mut work)));
    assert_eq!(panicked.unwrap_err().downcast_ref(), Some(&7_u8));
    assert_eq!(Rc::strong_count(&tokens[0]), 1);
    assert_eq!(realtime.run(&mut work), Ok(Ended::Closed));
    assert_eq!(done, [Rc::clone(&tokens[1])]);
}
