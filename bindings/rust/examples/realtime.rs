//! What a house in real time costs, and how well it keeps time: what `scripts/realtime` prints.
//!
//! `cargo run --release --example realtime [SECONDS]`: so long for each figure; 2 if no number is given.
//!
//! Checked, with status 1 if it does not hold: a house that is idle uses less than 1 % of a processor, and each deadline pays for
//! what its server took. The other figures are printed only, since they are the machine's, too.

use cbs::realtime::{Realtime, Rounding};
use cbs::{Client, House, Mode, Plan};
use std::error::Error;
use std::thread;
use std::time::{Duration, Instant};

const TICK: Duration = Duration::from_millis(1);

type Answer<T = ()> = Result<T, Box<dyn Error>>;

fn open<T>(servers: &[(u64, u64, Mode)]) -> Answer<(House<T>, Vec<Client<T>>)> {
    let mut plan = Plan::new();
    for &(budget, period, mode) in servers {
        plan.admit(budget, period, mode)?;
    }
    Ok(plan.open(16, 16)?)
}

/// Works for so long.
fn spin(time: Duration) {
    let began = Instant::now();
    while began.elapsed() < time {
        std::hint::spin_loop();
    }
}

/// Stops a house after so long.
fn stop_after<T>(time: Duration, house: &House<T>) -> thread::JoinHandle<()> {
    let stopper = house.stopper();
    thread::spawn(move || {
        thread::sleep(time);
        stopper.stop();
    })
}

/// Returns how long this thread was on a processor.
fn on_processor() -> Answer<Duration> {
    let text = std::fs::read_to_string("/proc/thread-self/schedstat")?;
    let nanos = text.split_whitespace().next().ok_or("no time")?.parse()?;
    Ok(Duration::from_nanos(nanos))
}

/// An idle house: with nobody there, and with a throttled server that waits for a tick in every 100.
fn idle(time: Duration) -> Answer {
    for (units, name) in [
        (0, "nobody has a job"),
        (1_000_000, "all who have one wait"),
    ] {
        let (mut house, mut clients) = open(&[(1, 100, Mode::Throttled), (1, 2, Mode::Soft)])?;
        if units > 0 {
            clients[0].send(0, units)?;
        }
        let stopped = stop_after(time, &house);
        let (before, began) = (on_processor()?, Instant::now());
        let mut realtime = Realtime::new(&mut house, TICK);
        realtime.run(|_unit: cbs::Unit<'_, u64>| {})?;
        let share = (on_processor()? - before).as_secs_f64() / began.elapsed().as_secs_f64();
        println!("idle, {name}: {:.3} % of a processor", 100.0 * share);
        assert!(share < 0.01, "an idle house uses {share} of a processor");
        stopped.join().expect("it does not panic");
    }
    Ok(())
}

/// Prints the least, the median, the 99th of 100 and the greatest of these.
fn print_spread(name: &str, times: &mut [Duration]) {
    times.sort_unstable();
    let at = |hundredth: usize| times[(times.len() - 1) * hundredth / 100].as_nanos() as f64 / 1e3;
    println!(
        "{name}: least {:.1}, median {:.1}, 99 % {:.1}, greatest {:.1} us, of {}",
        at(0),
        at(50),
        at(99),
        at(100),
        times.len()
    );
}

/// From a send to its first unit, alone, and beside somebody who always has a unit of 0.3 ticks.
fn latency(time: Duration) -> Answer {
    for (loaded, name) in [(false, "idle"), (true, "loaded")] {
        let (mut house, clients) = open(&[(2, 4, Mode::Soft), (1, 2, Mode::Soft)])?;
        let [mut client, mut other] =
            <[Client<Instant>; 2]>::try_from(clients).map_err(|_| "two clients")?;
        if loaded {
            other.send(Instant::now(), 1_000_000)?;
        }
        let stopped = stop_after(time, &house);
        let sender = thread::spawn(move || {
            while client.send(Instant::now(), 1).is_ok() {
                thread::sleep(Duration::from_micros(5137));
            }
        });
        let mut times = Vec::new();
        Realtime::new(&mut house, TICK).run(|unit| {
            if unit.server == 0 {
                times.push(unit.token.elapsed());
            } else {
                spin(TICK * 3 / 10);
            }
        })?;
        drop(house);
        sender.join().expect("it does not panic");
        stopped.join().expect("it does not panic");
        print_spread(&format!("from send to first unit, {name}"), &mut times);
    }
    Ok(())
}

/// The share of the wall clock of a throttled server with 1 tick in 10, beside a soft one with short units.
fn share(time: Duration) -> Answer {
    for rounding in [Rounding::Up, Rounding::Carry] {
        for hundredths in [30, 199, 2000] {
            let (mut house, mut clients) = open(&[(1, 10, Mode::Throttled), (2, 10, Mode::Soft)])?;
            for client in &mut clients {
                client.send(0_u64, 1_000_000)?;
            }
            let stopped = stop_after(time, &house);
            let (began, mut took) = (Instant::now(), Duration::ZERO);
            let mut realtime = Realtime::new(&mut house, TICK).rounding(rounding);
            let mut units = 0;
            realtime.run(|unit| {
                let began = Instant::now();
                if unit.server == 0 {
                    units += 1;
                    spin(TICK * hundredths / 100);
                    took += began.elapsed();
                } else {
                    spin(TICK / 10);
                }
            })?;
            let share = 100.0 * took.as_secs_f64() / began.elapsed().as_secs_f64();
            let ticks = f64::from(hundredths) / 100.0;
            let behind = realtime.counts().most_behind;
            println!("share of 1 tick in 10, units of {ticks} ticks, rounding {rounding:?}: {share:.2} % of the time, most behind {behind}");
            let (view, charged) = (house.view(0)?, house.charges(0)?.total);
            assert!(u128::from((units + charged + view.budget) * 10) <= view.deadline);
            stopped.join().expect("it does not panic");
        }
    }
    Ok(())
}

/// How much two units of a controller that has every tick are apart, more or less than a tick.
fn jitter(time: Duration) -> Answer {
    let (mut house, mut clients) = open(&[(1, 1, Mode::Soft)])?;
    clients[0].send(0_u64, 1_000_000)?;
    let stopped = stop_after(time, &house);
    let (mut last, mut times) = (None::<Instant>, Vec::new());
    let mut realtime = Realtime::new(&mut house, TICK);
    realtime.run(|_unit| {
        let now = Instant::now();
        let apart = last.map(|last| now - last);
        times.extend(apart.map(|apart| apart.max(TICK) - apart.min(TICK)));
        last = Some(now);
    })?;
    stopped.join().expect("it does not panic");
    print_spread("jitter at 1 kHz", &mut times);
    Ok(())
}

fn main() -> Answer {
    let seconds: f64 = std::env::args()
        .nth(1)
        .map_or(Ok(2.0), |word| word.parse())?;
    let time = Duration::from_secs_f64(seconds);
    idle(time)?;
    latency(time)?;
    share(time)?;
    jitter(time)
}
