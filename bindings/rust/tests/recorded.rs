//! Houses with random servers in real time, whose clients send random jobs from threads of their own, by a clock that goes on by
//! random steps, and jumps. Each is recorded.
//!
//! With `CBS_RECORDED=FOLDER` the recordings of `CBS_HOUSES` houses, from number `CBS_SEED` on, are left there: `N.tape`, and in
//! `N.txt` what the house shows at its end. Without it there are ten, and no file.

use cbs::realtime::{Clock, Realtime, Rounding};
use cbs::record::Settings;
use cbs::{Bell, Client, Ended, House, Mode, Plan, SendError};
use std::cell::Cell;
use std::fs::{self, File};
use std::io::{self, Write};
use std::path::Path;
use std::rc::Rc;
use std::thread;
use std::time::Duration;

/// In nanoseconds.
const TICK: u64 = 1000;

/// Numbers that come in no order.
struct Draw(u64);

impl Draw {
    /// Returns the next one, below `n`.
    fn below(&mut self, n: u64) -> u64 {
        let next = self.0.wrapping_mul(6_364_136_223_846_793_005);
        self.0 = next.wrapping_add(1_442_695_040_888_963_407);
        (self.0 >> 33) % n
    }

    fn mode(&mut self) -> Mode {
        match self.below(2) {
            0 => Mode::Soft,
            _ => Mode::Throttled,
        }
    }
}

/// It goes on at each look, mostly by less than a tick; now and then it jumps, and once in a while it steps back.
struct Jumping {
    now: Rc<Cell<u64>>,
    draw: Draw,
}

impl Clock for Jumping {
    fn now(&mut self) -> Duration {
        let now = self.now.get();
        self.now.set(match self.draw.below(100) {
            0 => now + self.draw.below(20 * TICK),
            1 => now.saturating_sub(self.draw.below(TICK)),
            _ => now + self.draw.below(TICK / 2),
        });
        Duration::from_nanos(self.now.get())
    }

    fn sleep_until(&mut self, time: Duration) {
        self.now.set(self.now.get().max(time.as_nanos() as u64));
    }

    /// Waits for a client if nobody has a job. Else the clock may come to the end of the wait before a client sends.
    fn wait(&mut self, bell: &Bell, until: Option<Duration>) {
        thread::yield_now();
        let far = Duration::from_nanos(self.now.get() + 1000 * TICK);
        match until.filter(|&time| time <= far) {
            Some(time) if self.draw.below(2) == 0 => self.sleep_until(time),
            Some(_) => {}
            None => bell.wait(None),
        }
    }
}

/// Sends jobs, with pauses, and then the end.
fn sends(mut client: Client, mut draw: Draw) {
    for left in (0..draw.below(60)).rev() {
        if let Err(refused) = client.send(left, 1 + draw.below(90) as u32) {
            assert_eq!(refused.error, SendError::RingFull);
        }
        if draw.below(3) == 0 {
            thread::yield_now();
        }
    }
}

/// Serves the house until all have ended, and records it.
fn serves(house: &mut House, draw: &mut Draw, to: impl Write + Send + 'static) {
    let now = Rc::new(Cell::new(0));
    let clock = Jumping {
        now: now.clone(),
        draw: Draw(draw.below(u64::from(u32::MAX))),
    };
    let rounding = match draw.below(2) {
        0 => Rounding::Up,
        _ => Rounding::Carry,
    };
    let mut realtime =
        Realtime::with_clock(house, Duration::from_nanos(TICK), clock).rounding(rounding);
    let settings = Settings {
        bytes: 4096,
        every: draw.below(50),
        ..Settings::default()
    };
    realtime.record(to, &settings).unwrap();
    let ended = realtime.run(|_unit| {
        if draw.below(10) == 0 {
            now.set(now.get() + draw.below(5 * TICK));
        }
    });
    assert_eq!(ended, Ok(Ended::Closed));
    realtime.end_record().unwrap();
}

/// Returns what a house shows: its clock, and of each server its budget, its deadline, whether it is throttled and closed, its
/// accepted and finished jobs, and the ticks that it was charged.
fn shown(house: &House, servers: usize) -> String {
    let mut text = format!("{}\n", house.now());
    for server in 0..servers {
        let view = house.view(server).unwrap();
        let flags = (u8::from(view.throttled), u8::from(view.closed));
        let charged = house.charges(server).unwrap().total;
        text += &format!(
            "{} {} {} {} {} {} {charged}\n",
            view.budget, view.deadline, flags.0, flags.1, view.accepted, view.finished
        );
    }
    text
}

/// Records the house of that number, and returns what it shows at its end.
fn recorded(number: u64, to: impl Write + Send + 'static) -> String {
    let mut draw = Draw(number);
    let servers = 1 + draw.below(4);
    let mut plan = Plan::new();
    for _ in 0..servers {
        let period = 4 + draw.below(3) * 4;
        let budget = 1 + draw.below(period / 4);
        plan.admit(budget, period, draw.mode()).unwrap();
    }
    let (backlog, ring) = (1 + draw.below(8), 1 + draw.below(8));
    let (mut house, clients): (House, Vec<Client>) =
        plan.open(backlog as usize, ring as usize).unwrap();
    let mut senders = Vec::new();
    for client in clients {
        let numbers = Draw(draw.below(u64::from(u32::MAX)));
        senders.push(thread::spawn(move || sends(client, numbers)));
    }
    serves(&mut house, &mut draw, to);
    for sender in senders {
        sender.join().unwrap();
    }
    shown(&house, servers as usize)
}

/// Returns the number in a variable of the environment.
fn number_in(name: &str) -> u64 {
    std::env::var(name).unwrap().parse().unwrap()
}

#[test]
fn random_houses_are_recorded() {
    let folder = match std::env::var("CBS_RECORDED") {
        Ok(folder) => folder,
        Err(_) => return (0..10).for_each(|number| drop(recorded(number, io::sink()))),
    };
    let (first, houses) = (number_in("CBS_SEED"), number_in("CBS_HOUSES"));
    for number in first..first + houses {
        let path = Path::new(&folder).join(number.to_string());
        let shown = recorded(number, File::create(path.with_extension("tape")).unwrap());
        fs::write(path.with_extension("txt"), shown).unwrap();
    }
}
