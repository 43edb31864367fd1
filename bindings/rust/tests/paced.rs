//! What a host does next, by readings that the tests make up, and a house that is looked at while
//! it runs.

use cbs::realtime::{Clock, Next, Pacer, Realtime, Rounding};
use cbs::{Bell, Client, Ended, House, Mode, Plan, SendError};
use std::cell::Cell;
use std::rc::Rc;
use std::thread;
use std::time::{Duration, Instant};

const TICK: Duration = Duration::from_micros(1000);

fn micros(time: u64) -> Duration {
    Duration::from_micros(time)
}

fn open(budget: u64, period: u64, mode: Mode) -> (House<&'static str>, Client<&'static str>) {
    let mut plan = Plan::new();
    plan.admit(budget, period, mode).unwrap();
    let (house, mut clients) = plan.open(4, 4).unwrap();
    (house, clients.remove(0))
}

fn begin<T>(house: &House<T>) -> Pacer {
    house.pace(TICK, Rounding::Up, Duration::ZERO)
}

/// What is next, without its borrow.
#[derive(Debug, PartialEq)]
enum Seen {
    Unit(&'static str),
    Last(&'static str),
    Sleep(u64),
    Listen,
    Wait(Option<u64>),
    Over,
    ClockEnd,
}

fn seen(next: Next<'_, &'static str>) -> Seen {
    match next {
        Next::Do(unit) if unit.is_last() => Seen::Last(unit.into_token().unwrap()),
        Next::Do(unit) => Seen::Unit(*unit.token),
        Next::SleepUntil(time) => Seen::Sleep(time.as_micros() as u64),
        Next::Listen => Seen::Listen,
        Next::WaitUntil(time) => Seen::Wait(time.map(|time| time.as_micros() as u64)),
        Next::Over => Seen::Over,
        Next::ClockEnd => Seen::ClockEnd,
        Next::OutOfMemory => unreachable!("there is memory"),
    }
}

// 1 tick in 10: the second unit waits for tick 10. It takes 2.5 ticks, and 2 are charged.
#[test]
fn each_answer_has_its_reading() {
    let (mut house, mut client) = open(1, 10, Mode::Throttled);
    let mut pacer = begin(&house);
    client.send("wash", 2).unwrap();
    let mut asks = |time, wanted| assert_eq!(seen(house.next(&mut pacer, micros(time))), wanted);
    asks(0, Seen::Unit("wash"));
    asks(300, Seen::Listen);
    asks(300, Seen::Wait(Some(10_000)));
    asks(4000, Seen::Listen);
    asks(4000, Seen::Wait(Some(10_000)));
    asks(10_000, Seen::Last("wash"));
    client.end().unwrap();
    asks(12_500, Seen::Over);
    asks(99_000, Seen::Over);
    assert_eq!(house.charges(0).unwrap().total, 2);
    let counts = pacer.counts();
    assert_eq!((counts.units, counts.overruns, counts.charged), (2, 1, 2));
    assert_eq!(counts.longest, micros(2500));
}

#[test]
fn a_unit_does_not_begin_before_its_tick() {
    let (mut house, mut client) = open(1, 1, Mode::Soft);
    let mut pacer = begin(&house);
    client.send("wash", 2).unwrap();
    let mut asks = |time, wanted| assert_eq!(seen(house.next(&mut pacer, micros(time))), wanted);
    asks(0, Seen::Unit("wash"));
    asks(300, Seen::Sleep(1000));
    asks(999, Seen::Sleep(1000));
    asks(1000, Seen::Last("wash"));
}

#[test]
fn the_clocks_end_and_no_end() {
    let (mut house, mut client) = open(1, 1, Mode::Soft);
    let mut pacer = house.pace(Duration::MAX, Rounding::Carry, Duration::ZERO);
    assert_eq!(seen(house.next(&mut pacer, micros(0))), Seen::Listen);
    assert_eq!(seen(house.next(&mut pacer, micros(0))), Seen::Wait(None));
    house.advance(999_999_999_999).unwrap();
    let mut pacer = begin(&house);
    client.send("wash", 2).unwrap();
    assert_eq!(seen(house.next(&mut pacer, micros(0))), Seen::Unit("wash"));
    assert_eq!(seen(house.next(&mut pacer, micros(1000))), Seen::ClockEnd);
}

// Each unit takes three ticks by the clock. By its own measure the first takes 0.4, the second 1.5,
// and the third more than the clock says, which is not charged.
#[test]
fn measured_units_pay_for_themselves() {
    let (mut house, mut client) = open(1, 1, Mode::Soft);
    let mut pacer = begin(&house);
    client.send("wash", 4).unwrap();
    assert_eq!(seen(house.next(&mut pacer, micros(0))), Seen::Unit("wash"));
    for (time, took, charged, behind) in [(3000, 400, 0, 2), (6000, 1500, 1, 3), (9000, 9000, 3, 3)]
    {
        let _ = house.next_measured(&mut pacer, micros(time), micros(took));
        assert_eq!(house.charges(0).unwrap().total, charged);
        assert_eq!(pacer.counts().behind, behind);
    }
    house.done_measured(&mut pacer, micros(12_000), micros(2000));
    assert_eq!((pacer.counts().units, pacer.counts().charged), (4, 4));
    house.done(&mut pacer, micros(20_000)); // it has ended
    assert_eq!((pacer.counts().units, pacer.counts().charged), (4, 4));
}

// `promised` can be asked right after the question that took the job. Three units are done by 30.
#[test]
fn a_promise_follows_the_question() {
    let (mut house, mut client) = open(1, 10, Mode::Throttled);
    let mut pacer = begin(&house);
    client.send("wash", 3).unwrap();
    assert_eq!(house.promised(0).unwrap(), None);
    let _ = house.next(&mut pacer, micros(0));
    assert_eq!((pacer.taken(), house.promised(0).unwrap()), (1, Some(30)));
    let _ = house.next(&mut pacer, micros(100));
    assert_eq!((pacer.taken(), house.promised(0).unwrap()), (0, Some(30)));
}

// A sender who waits for room is woken by the question that makes room.
#[test]
fn a_question_that_takes_messages_wakes_senders() {
    let mut plan = Plan::new();
    plan.admit(1, 1, Mode::Soft).unwrap();
    let (mut house, mut clients) = plan.open::<u64>(4, 1).unwrap();
    let mut client = clients.remove(0);
    client.send(0, 1).unwrap();
    assert_eq!(client.send(1, 1).unwrap_err().error, SendError::RingFull);
    let sender = thread::spawn(move || client.blocking_send(1, 1).unwrap());
    let mut pacer = begin(&house);
    let mut time = 0;
    while !matches!(house.next(&mut pacer, micros(time)), Next::Over) {
        time += 1000;
        thread::yield_now();
    }
    assert_eq!((sender.join().unwrap(), pacer.counts().units), (1, 2));
}

// Once it listens the house misses no ring, though it does not wait yet: of a send, and of a stop.
#[test]
fn no_ring_is_missed_after_listen() {
    let (mut house, mut client) = open(1, 1, Mode::Soft);
    let stopper = house.stopper();
    let mut pacer = begin(&house);
    let rings: [&mut dyn FnMut(); 2] = [
        &mut || assert_eq!(client.send("wash", 1).unwrap(), 0),
        &mut || stopper.stop(),
    ];
    for ring in rings {
        while seen(house.next(&mut pacer, micros(0))) != Seen::Listen {}
        ring();
        let began = Instant::now();
        house.bell().wait(Some(Duration::from_secs(20)));
        assert!(began.elapsed() < Duration::from_secs(10));
        pacer = begin(&house);
    }
    assert!(house.is_told_to_stop() && !house.is_told_to_stop());
}

/// A clock that stands unless somebody waits or works. Each wait ends when the house is looked at.
#[derive(Clone, Default)]
struct Fake {
    now: Rc<Cell<Duration>>,
    worked: Rc<Cell<Option<Duration>>>,
    look: Rc<Cell<Option<Duration>>>,
}

impl Clock for Fake {
    fn now(&mut self) -> Duration {
        self.now.get()
    }

    fn sleep_until(&mut self, time: Duration) {
        self.now.set(self.now.get().max(time));
    }

    fn wait(&mut self, _bell: &Bell, until: Option<Duration>) {
        let first = until.into_iter().chain(self.look.get()).min();
        self.sleep_until(first.expect("the house would wait for ever"));
    }

    fn worked(&mut self) -> Option<Duration> {
        self.worked.get()
    }
}

// A house with 1 tick in 10 is looked at each 10 ms. By hand: a unit of three ticks is paid by
// three periods, so the units come at 0, 30 and 60. After the first the deadline is 30, and two
// units are left, for 50. After the second it is 60, and one is left, for 70.
#[test]
fn a_house_is_looked_at_while_it_runs() {
    let (mut house, mut client) = open(1, 10, Mode::Throttled);
    client.send("wash", 3).unwrap();
    drop(client);
    let fake = Fake::default();
    let mut look = micros(10_000);
    fake.look.set(Some(look));
    let mut realtime = Realtime::with_clock(&mut house, TICK, fake.clone());
    let mut seen = Vec::new();
    let work = || fake.now.set(fake.now.get() + micros(3000));
    while realtime.step(|_unit| work()).unwrap().is_none() {
        if fake.now.get() >= look {
            let view = realtime.house().view(0).unwrap();
            assert!(view.throttled);
            let promised = realtime.house().promised(0).unwrap().unwrap();
            let charges = realtime.house().charges(0).unwrap();
            assert_eq!(realtime.counts().charged, charges.total);
            seen.push((
                view.deadline,
                charges.total,
                promised,
                realtime.counts().units,
            ));
            look += micros(10_000);
            fake.look.set(Some(look));
        }
    }
    let (first, second) = ((30, 2, 50, 1), (60, 4, 70, 2));
    assert_eq!(seen, [first, first, first, second, second, second]);
    assert_eq!(realtime.counts().charged, 6);
    assert_eq!((house.now(), fake.now.get()), (63, micros(63_000)));
}

// Between two steps it is sent to, and told to stop. The last unit is charged then.
#[test]
fn a_house_is_sent_to_and_stopped_between_steps() {
    let (mut house, mut client) = open(1, 1, Mode::Soft);
    let stopper = house.stopper();
    let fake = Fake::default();
    let mut realtime = Realtime::with_clock(&mut house, TICK, fake.clone());
    let mut done = Vec::new();
    assert_eq!(realtime.step(|_unit| unreachable!()), Ok(None)); // it listens
    client.send("wash", 1).unwrap();
    let step = realtime.step(|unit| {
        done.extend(unit.into_token());
        fake.now.set(micros(2500));
    });
    assert_eq!((step, done), (Ok(None), vec!["wash"]));
    assert_eq!(realtime.taken(), 1);
    assert_eq!(realtime.counts().units, 0); // it ends with the next question
    stopper.stop();
    let stopped = realtime.step(|_unit| unreachable!());
    assert_eq!(stopped, Ok(Some(Ended::Stopped)));
    assert_eq!((realtime.counts().units, realtime.counts().charged), (1, 2));
}

// Units of three ticks of which the thread works for 0.4, by the measure of the clock: none is
// charged, and the house is behind by the rest until nobody is ready.
#[test]
fn a_clock_with_a_measure_of_its_own() {
    let (mut house, mut client) = open(1, 1, Mode::Soft);
    client.send("wash", 3).unwrap();
    drop(client);
    let fake = Fake::default();
    fake.worked.set(Some(micros(77)));
    let mut realtime = Realtime::with_clock(&mut house, TICK, fake.clone());
    let ended = realtime.run(|_unit| {
        fake.now.set(fake.now.get() + micros(3000));
        fake.worked
            .set(fake.worked.get().map(|worked| worked + micros(400)));
    });
    assert_eq!(ended, Ok(Ended::Closed));
    let counts = realtime.counts();
    assert_eq!(
        (counts.units, counts.charged, counts.longest),
        (3, 0, micros(400))
    );
    assert_eq!((counts.behind, counts.most_behind), (0, 4));
    assert_eq!(house.now(), 9);
}
