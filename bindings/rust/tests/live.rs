//! Figures of a house as it runs, by readings that the tests make up, and read from another thread.

mod within;

use cbs::live::{Figures, Live, Spread};
use cbs::realtime::{Clock, Next, Realtime, Rounding};
use cbs::{Bell, Client, House, HouseError, Mode, Plan};
use std::panic::{catch_unwind, AssertUnwindSafe};
use std::sync::atomic::{AtomicBool, Ordering};
use std::sync::Arc;
use std::thread;
use std::time::Duration;
use within::within_a_second;

const TICK: Duration = Duration::from_micros(1);

fn nanos(time: u64) -> Duration {
    Duration::from_nanos(time)
}

fn open(servers: &[(u64, u64, Mode)]) -> (House<&'static str>, Vec<Client<&'static str>>) {
    let mut plan = Plan::new();
    for &(budget, period, mode) in servers {
        plan.admit(budget, period, mode).unwrap();
    }
    plan.open(2, 4).unwrap()
}

fn told(of: &Spread) -> [u64; 4] {
    [of.count, of.total, of.least, of.greatest]
}

#[test]
fn numbers_are_summarized() {
    let mut spread = Spread::default();
    assert_eq!((spread.mean(), spread.at_most(990)), (0, 0));
    for number in [8, 3, 0, 2, 1, 7, 4, 1] {
        spread.add(number);
    }
    assert_eq!(told(&spread), [8, 26, 0, 8]);
    assert_eq!(spread.powers[..6], [1, 2, 2, 2, 1, 0]);
    let bounds = [125, 126, 375, 376, 875, 876, 5000].map(|per_mille| spread.at_most(per_mille));
    assert_eq!((spread.mean(), bounds), (3, [0, 1, 1, 3, 7, 8, 8]));
    spread.add(u64::MAX);
    assert_eq!(told(&spread), [9, u64::MAX, 0, u64::MAX]);
    assert_eq!(spread.powers[64], 1);
}

// 2 ticks in 5. The second unit uses the budget up, so the server shows the deadline 10 after it.
// But it was chosen by 5. It takes 8.5 ticks, so it ends at tick 10.
#[test]
fn a_unit_is_late_by_the_deadline_that_it_was_chosen_by() {
    let (mut house, mut clients) = open(&[(2, 5, Mode::Soft)]);
    let live = house.live(&[]);
    let mut pacer = house.pace(TICK, Rounding::Up, nanos(5000));
    clients[0].send("wash", 2).unwrap();
    let mut asks = |time| matches!(house.next(&mut pacer, nanos(time)), Next::Do(_));
    assert!(asks(5000) && !asks(5300) && asks(6000));
    assert_eq!(live.read(0).unwrap().units, 1);
    assert!(!asks(14_500));
    let of = live.read(0).unwrap();
    let counts = (of.ticks, of.accepted, of.units, of.charged);
    assert_eq!(counts, (10, 1, 2, 8));
    assert_eq!(told(&of.responses), [1, 9500, 9500, 9500]);
    assert_eq!(told(&of.lateness), [2, 5, 0, 5]);
    assert_eq!((of.late(), of.share()), (1, 1000));
    assert_eq!(house.view(0).unwrap().budget, 2);
}

// Two jobs at most are unfinished. They are accepted at 0, 400 and 1000, and end at 400, 2600 and
// 3100.
#[test]
fn each_response_is_that_of_its_job() {
    let (mut house, mut clients) = open(&[(1, 1, Mode::Soft)]);
    let live = house.live(&["control"]);
    let mut pacer = house.pace(TICK, Rounding::Up, nanos(0));
    let send = |client: &mut Client<_>| client.send("wash", 1).unwrap();
    send(&mut clients[0]);
    send(&mut clients[0]);
    for time in [0, 400] {
        let _ = house.next(&mut pacer, nanos(time));
    }
    send(&mut clients[0]);
    for time in [1000, 2600, 3000, 3100] {
        let _ = house.next(&mut pacer, nanos(time));
    }
    let of = live.read(0).unwrap();
    assert_eq!(told(&of.responses), [3, 4700, 400, 2200]);
    assert_eq!(told(&of.lateness), [3, 1, 0, 1]);
    assert_eq!((of.ticks, of.units, of.charged), (4, 3, 1));
}

#[test]
fn a_unit_ends_with_done() {
    let (mut house, mut clients) = open(&[(1, 1, Mode::Soft)]);
    let live = house.live(&[]);
    let mut pacer = house.pace(TICK, Rounding::Up, nanos(0));
    clients[0].send("wash", 2).unwrap();
    let _ = house.next(&mut pacer, nanos(0));
    assert_eq!(live.read(0).unwrap().units, 0);
    house.done_measured(&mut pacer, nanos(5000), nanos(2500));
    let of = live.read(0).unwrap();
    assert_eq!((of.ticks, of.units, of.charged), (3, 1, 2));
    house.done(&mut pacer, nanos(6000));
    assert_eq!(live.read(0), Ok(of));
}

#[test]
fn servers_have_names() {
    let servers = [(1, 2, Mode::Soft), (1, 4, Mode::Throttled)];
    let (mut house, clients) = open(&servers);
    let live = house.live(&["control"]);
    drop((house, clients));
    assert_eq!(live.servers(), 2);
    let names = [0, 1, 2].map(|server| live.name(server));
    assert_eq!(names, [Some("control"), Some("1"), None]);
    assert_eq!(live.read(1), Ok(Figures::default()));
    assert_eq!(live.read(2), Err(HouseError::NoSuchServer));
    assert_eq!(
        format!("{live:?}"),
        r#"Live { names: ["control", "1"], .. }"#
    );
}

/// A clock whose units take so long.
struct Steps {
    now: Duration,
}

impl Clock for Steps {
    fn now(&mut self) -> Duration {
        self.now += Duration::from_millis(1);
        self.now
    }

    fn sleep_until(&mut self, time: Duration) {
        self.now = time;
    }

    fn wait(&mut self, _: &Bell, until: Option<Duration>) {
        self.now = until.unwrap();
    }
}

// Each reading is a millisecond after the one before, so each unit takes a millisecond. The first
// question is at 2 ms, where the jobs are accepted.
#[test]
fn a_table_is_displayed() {
    let servers = [(2, 5, Mode::Soft), (1, 10, Mode::Throttled)];
    let (mut house, mut clients) = open(&servers);
    let live = house.live(&["control", "video"]);
    clients[0].send("steer", 3).unwrap();
    clients[1].send("encode", 1).unwrap();
    drop(clients);
    let clock = Steps {
        now: Duration::ZERO,
    };
    let mut realtime = Realtime::with_clock(&mut house, Duration::from_millis(1), clock);
    realtime.run(|_| {}).unwrap();
    let wanted = "\
server         jobs done   share   least ms    mean ms    99 % ms greatest ms late units most ticks
control                1   75.0 %     3.000      3.000      3.000       3.000          0          0
video                  1   25.0 %     4.000      4.000      4.000       4.000          0          0";
    assert_eq!(live.to_string(), wanted);
}

#[test]
fn a_unit_that_panics_has_ended() {
    let (mut house, mut clients) = open(&[(1, 1, Mode::Soft)]);
    let live = house.live(&[]);
    clients[0].send("wash", 1).unwrap();
    let mut realtime = Realtime::new(&mut house, Duration::from_millis(1));
    let step = || realtime.step(|_| panic!("no soap"));
    assert!(catch_unwind(AssertUnwindSafe(step)).is_err());
    let of = live.read(0).unwrap();
    assert_eq!((of.units, of.responses.count), (1, 1));
}

fn reads(live: &Live, on: &AtomicBool) {
    let mut units = 0;
    while on.load(Ordering::SeqCst) {
        let of = live.read(0).unwrap();
        assert!(of.units >= units && of.responses.count <= of.accepted);
        assert!(of.units + of.charged <= of.ticks);
        assert_eq!(of.lateness.count, of.units);
        units = of.units;
        thread::sleep(Duration::from_micros(100)); // a checker runs one thread at a time
    }
}

#[test]
fn a_thread_reads_while_the_house_runs() {
    within_a_second(|| {
        let (mut house, mut clients) = open(&[(1, 1, Mode::Soft)]);
        let live = house.live(&[]);
        let on = Arc::new(AtomicBool::new(true));
        let (of_reader, reader_on) = (live.clone(), Arc::clone(&on));
        let reader = thread::spawn(move || reads(&of_reader, &reader_on));
        let mut client = clients.remove(0);
        let sender = thread::spawn(move || {
            for _ in 0..1000 {
                client.blocking_send("wash", 1).unwrap();
            }
        });
        Realtime::new(&mut house, Duration::from_micros(10))
            .run(|_| {})
            .unwrap();
        on.store(false, Ordering::SeqCst);
        reader.join().unwrap();
        sender.join().unwrap();
        let of = live.read(0).unwrap();
        assert_eq!(
            (of.accepted, of.units, of.responses.count),
            (1000, 1000, 1000)
        );
    });
}
