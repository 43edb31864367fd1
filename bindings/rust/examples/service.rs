//! A service in real time that serves for ever, in bounded memory: requests of three clients on one thread.
//!
//! A request is a closure, and its answer comes by a handle. One client is slow: it asks now and then, and waits for each answer.
//! One is greedy: it asks as fast as its ring takes requests, whose units take four ticks each, and waits for none. One dies in the
//! midst of its requests, and one of them panics before. The others do not notice.
//!
//! Checked, with status 1 if it does not hold: each answer is right, the dead client's requests are done and its server is closed,
//! and the memory does not grow. Printed only: how long the slow client waits for an answer.
//!
//! `cargo run --release --example service [SECONDS]`: 0, the default, is for ever.

use cbs::realtime::Realtime;
use cbs::{Client, Ended, Job, Mode, Plan, Stopper};
use std::error::Error;
use std::sync::atomic::{AtomicU64, Ordering};
use std::sync::Arc;
use std::thread;
use std::time::{Duration, Instant};

const TICK: Duration = Duration::from_millis(1);

/// So much may a second half of the time take more than the first, in bytes: what the allocator and the threads' stacks keep.
const GROWTH: u64 = 4 << 20;

/// A unit of a request: some work.
fn work(time: Duration) {
    let began = Instant::now();
    while began.elapsed() < time {
        std::hint::spin_loop();
    }
}

/// The slow client: a request every 20 ms, and it waits for each answer. Returns when the house is gone.
fn slow(mut client: Client<Job>, worst: &AtomicU64) {
    for number in 0.. {
        let mut answer = number;
        let (job, handle) = Job::new(move |unit| {
            work(TICK / 2);
            answer += unit;
            answer
        });
        let began = Instant::now();
        if client.blocking_send(job, 3).is_err() {
            return;
        }
        match handle.join() {
            Ok(answer) => assert_eq!(answer, number + 3),
            Err(_lost) => return, // with the house
        }
        worst.fetch_max(began.elapsed().as_micros() as u64, Ordering::SeqCst);
        thread::sleep(Duration::from_millis(20));
    }
}

/// The greedy client: requests without end, each of which holds a kilobyte until it is done.
fn greedy(mut client: Client<Job>) {
    loop {
        let memory = vec![1_u8; 1024];
        let (job, _handle) = Job::new(move |unit| {
            work(TICK * 4);
            memory[unit as usize]
        });
        if client.blocking_send(job, 2).is_err() {
            return; // the house is gone
        }
    }
}

/// The client that dies, after ten requests. The third panics in its first unit.
fn dying(mut client: Client<Job>) {
    for number in 0..10 {
        let (job, _handle) = Job::new(move |_unit| assert_ne!(number, 2, "a request panics"));
        client.send(job, 1).expect("a place in the ring");
    }
    panic!("a client dies");
}

/// Returns how many bytes of memory this process has.
fn memory() -> u64 {
    let status = std::fs::read_to_string("/proc/self/status").unwrap_or_default();
    let line = status.lines().find_map(|line| line.strip_prefix("VmRSS:"));
    let kilobytes = line.and_then(|line| line.trim().strip_suffix(" kB")?.parse::<u64>().ok());
    kilobytes.unwrap_or(0) * 1024
}

/// Tells the house to stop after so long, if that is not for ever. Returns how much the memory grew in the second half.
fn stop_after(seconds: u64, stopper: &Stopper) -> u64 {
    if seconds == 0 {
        loop {
            thread::park();
        }
    }
    thread::sleep(Duration::from_secs(seconds) / 2);
    let before = memory();
    thread::sleep(Duration::from_secs(seconds) / 2);
    let growth = memory().saturating_sub(before);
    stopper.stop();
    growth
}

fn main() -> Result<(), Box<dyn Error>> {
    let seconds = std::env::args().nth(1).map_or(Ok(0), |word| word.parse())?;
    let mut plan = Plan::new();
    plan.admit(3, 20, Mode::Soft)?;
    plan.admit(1, 10, Mode::Soft)?;
    plan.admit(1, 10, Mode::Throttled)?;
    let (mut house, clients) = plan.open(16, 16)?;
    let [first, second, third] = <[Client<Job>; 3]>::try_from(clients).expect("three clients");
    let worst = Arc::new(AtomicU64::new(0));
    let seen = Arc::clone(&worst);
    let stopper = house.stopper();
    let senders = [
        thread::spawn(move || slow(first, &seen)),
        thread::spawn(move || greedy(second)),
        thread::spawn(move || dying(third)),
    ];
    let watch = thread::spawn(move || stop_after(seconds, &stopper));

    let mut realtime = Realtime::new(&mut house, TICK);
    assert_eq!(realtime.run_jobs()?, Ended::Stopped);
    println!("{:?}", realtime.counts());
    let growth = watch.join().expect("the watch");
    let dead = house.view(2)?;
    let answers = house.view(0)?.finished;
    drop(house); // the others end
    let ended = senders.map(|sender| sender.join().is_ok());
    let worst = Duration::from_micros(worst.load(Ordering::SeqCst));
    println!(
        "{answers} answers, each after at most {worst:?}; the memory grew by {} KB",
        growth / 1024
    );
    assert_eq!(ended, [true, true, false], "one client dies");
    assert!(dead.closed && dead.finished == 10, "its requests are done");
    assert!(growth < GROWTH, "the memory grew by {growth} bytes");
    Ok(())
}
