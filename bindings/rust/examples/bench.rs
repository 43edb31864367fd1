//! What a call costs from Rust, in nanoseconds: the least of so many rounds, for 1, 8 and 64 servers.
//!
//! `cargo run --release --example bench [ROUNDS]`: 200 if no number is given.

use cbs::realtime::{Next, Rounding};
use cbs::{Client, House, Mode, Plan, Poll, Ran};
use std::time::{Duration, Instant};

const CALLS: u64 = 2000;
const TICK: Duration = Duration::from_micros(1);

const NAMES: [&str; 9] = [
    "now",
    "run, idle",
    "poll, nothing",
    "idle_span",
    "next, nobody ready",
    "send, poll and run a job of one unit",
    "run, a unit",
    "turn, a unit",
    "next, a unit",
];

/// Calls with the servers in turn. Nothing is divided here: that would be measured.
fn timed(servers: usize, mut call: impl FnMut(usize, u64)) -> f64 {
    let start = Instant::now();
    let mut server = 0;
    for number in 0..CALLS {
        call(server, number);
        server += 1;
        if server == servers {
            server = 0;
        }
    }
    start.elapsed().as_nanos() as f64 / CALLS as f64
}

fn job(house: &mut House, clients: &mut [Client], server: usize, number: u64) {
    clients[server]
        .send(number, 1)
        .expect("a place in the ring");
    assert_eq!(house.poll(server), Ok(Poll::Took));
    assert!(matches!(house.run(), Ran::Unit(unit) if unit.is_last() && *unit.token == number));
}

/// Gives each server a job that is longer than what is measured.
fn load(house: &mut House, clients: &mut [Client]) {
    for (server, client) in clients.iter_mut().enumerate() {
        client.send(7, 1_000_000).expect("a place in the ring");
        assert_eq!(house.poll(server), Ok(Poll::Took));
    }
}

/// Asks what is next, each time a tick later: always a unit, or never.
fn questions(house: &mut House, units: bool) -> f64 {
    let mut time = Duration::ZERO;
    let mut pacer = house.pace(TICK, Rounding::Up, time);
    timed(house.servers(), |_, _| {
        time += TICK;
        let next = house.next(&mut pacer, time);
        assert_eq!(matches!(next, Next::Do(_)), units);
    })
}

fn round(plan: &Plan) -> [f64; 9] {
    let (mut house, mut clients) = plan.open::<u64>(4096, 1024).expect("memory");
    let n = house.servers();
    let now = timed(n, |_, _| assert_eq!(house.now(), 0));
    let idle = timed(n, |_, _| assert!(matches!(house.run(), Ran::Idle)));
    let nothing = timed(n, |server, _| {
        assert_eq!(house.poll(server), Ok(Poll::Nothing))
    });
    let span = timed(n, |_, _| assert!(house.idle_span().is_some()));
    let rest = questions(&mut house, false);
    let jobs = timed(n, |server, number| {
        job(&mut house, &mut clients, server, number)
    });
    load(&mut house, &mut clients);
    let unit = timed(n, |_, _| {
        assert!(matches!(house.run(), Ran::Unit(unit) if !unit.is_last()))
    });
    let turn = timed(n, |_, _| {
        assert!(matches!(house.turn().ran, Ran::Unit(unit) if !unit.is_last()))
    });
    let next = questions(&mut house, true);
    [now, idle, nothing, span, rest, jobs, unit, turn, next]
}

fn main() {
    let rounds = std::env::args()
        .nth(1)
        .and_then(|word| word.parse().ok())
        .unwrap_or(200);
    for servers in [1, 8, 64] {
        let mut plan = Plan::new();
        for server in 0..servers {
            plan.admit(1 + server % 4, 256, Mode::Soft)
                .expect("it fits");
        }
        let mut least = [f64::INFINITY; 9];
        for _ in 0..rounds {
            let costs = round(&plan);
            least = std::array::from_fn(|case| least[case].min(costs[case]));
        }
        for (cost, name) in least.iter().zip(NAMES) {
            println!("{servers:2} servers: {cost:5.1} ns {name}");
        }
    }
}
