//! A robot's loop in real time: a controller at 1 kHz beside vision and logging, all on one thread.
//!
//! A tick is a quarter of a millisecond. The controller has a unit in each millisecond, a picture is looked at in bands, and the log
//! is packed in blocks. The logger is greedy: it sends all that its ring takes, and each sixteenth block is flushed, which takes
//! four ticks. It is charged, and so gets its share in time, and what nobody else wants.
//!
//! Checked, with status 1 if it does not hold: each job is done once and in order, and each deadline pays for what its server
//! took, charges too. Printed only, since the host may take its processor away: how long a job took from its send to its end.
//!
//! `cargo run --release --example robot [SECONDS [FILE]]`: 2 if no number is given. With a FILE, the run is recorded: `cbsrun replay
//! FILE` makes its steps again.

use cbs::realtime::Realtime;
use cbs::record::Settings;
use cbs::{Client, House, Mode, Plan, SendError, Unit};
use std::error::Error;
use std::fs::File;
use std::thread::{self, JoinHandle};
use std::time::{Duration, Instant};

const TICK: Duration = Duration::from_micros(250);

/// The servers: a name, a budget and a period in ticks, how many units a job has, and each how many milliseconds one is sent; 0 for
/// as fast as it goes. They have reserved 86 % of the time. The rest makes up for what a flush delays.
const SERVERS: [(&str, u64, u64, u32, u64); 3] = [
    ("control", 1, 4, 1, 1),
    ("vision", 64, 132, 60, 33),
    ("logger", 1, 8, 8, 0),
];

/// What is known of one server's jobs.
#[derive(Default)]
struct Tally {
    units: u64,
    finished: u64,
    longest: Duration,
}

/// An arm that is controlled, a mass that is pushed: where it is and how fast it goes. And what vision and the logger came to.
#[derive(Default)]
struct Robot {
    place: f64,
    speed: f64,
    missing: f64,
    brightness: u64,
    checksum: u32,
    tallies: [Tally; 3],
}

impl Robot {
    /// Does one unit. The token is when its job was sent.
    fn work(&mut self, unit: Unit<'_, Instant>, picture: &[u8]) {
        let nth = self.tallies[unit.server].units;
        match unit.server {
            0 => self.control(1.0),
            1 => {
                let band = picture.iter().skip(nth as usize % 60).step_by(60);
                self.brightness += band.map(|&pixel| u64::from(pixel)).sum::<u64>();
            }
            _ => self.pack(nth),
        }
        let tally = &mut self.tallies[unit.server];
        assert_eq!(unit.seq, tally.finished, "each job is done in order");
        tally.units += 1;
        if let Some(sent) = unit.into_token() {
            tally.finished += 1;
            tally.longest = tally.longest.max(sent.elapsed());
        }
    }

    /// One step of a PID controller to a goal, and of the arm, by a millisecond.
    fn control(&mut self, goal: f64) {
        let error = goal - self.place;
        self.missing += error * 0.001;
        self.speed += (80.0 * error + 20.0 * self.missing - 12.0 * self.speed) * 0.001;
        self.place += self.speed * 0.001;
    }

    /// Packs a block of the log: a checksum over what stands there. Now and then it flushes.
    fn pack(&mut self, block: u64) {
        let began = Instant::now();
        for byte in format!("{block}: at {:.6}\n", self.place)
            .repeat(16)
            .bytes()
        {
            self.checksum = self.checksum.rotate_left(5) ^ u32::from(byte);
        }
        while block % 16 == 0 && began.elapsed() < Duration::from_micros(900) {}
    }
}

/// A sender, by a thread of its own. Returns how many jobs it sent. The client is dropped then, which ends it.
fn start(mut client: Client<Instant>, until: Instant) -> JoinHandle<u64> {
    let (name, _, _, units, every) = SERVERS[client.server()];
    thread::spawn(move || {
        let (mut next, mut sent) = (Instant::now(), 0);
        while next < until {
            match client.send(Instant::now(), units) {
                Ok(_seq) => sent += 1,
                Err(refused) if refused.error == SendError::RingFull => {} // it is old by the time that there is a place
                Err(refused) => panic!("{name}: {refused}"),
            }
            next += Duration::from_micros((every * 1000).max(100));
            thread::sleep(next.saturating_duration_since(Instant::now()));
        }
        sent
    })
}

/// Prints what a server got, and checks that all was done, and paid for.
fn report(house: &House<Instant>, server: usize, tally: &Tally, sent: u64) {
    let (name, budget, period, ..) = SERVERS[server];
    let view = house.view(server).expect("a server of the plan");
    let charged = house.charges(server).expect("a server of the plan").total;
    let got = tally.units + charged;
    let share = 100.0 * got as f64 / house.now() as f64;
    println!(
        "{name:8} {sent:5} jobs, {share:4.1} % of the ticks, {charged} of them charged; a job took at most {:?}",
        tally.longest
    );
    assert_eq!((view.finished, tally.finished), (sent, sent));
    assert!(u128::from((got + view.budget) * period) <= view.deadline * u128::from(budget));
}

fn main() -> Result<(), Box<dyn Error>> {
    let seconds = std::env::args().nth(1).map_or(Ok(2), |word| word.parse())?;
    let mut plan = Plan::new();
    for (_, budget, period, ..) in SERVERS {
        plan.admit(budget, period, Mode::Soft)?;
    }
    let (mut house, clients) = plan.open(8, 4)?;
    let until = Instant::now() + Duration::from_secs(seconds);
    let senders = clients.into_iter().map(|client| start(client, until));
    let senders: Vec<_> = senders.collect();
    let picture: Vec<u8> = (0..640 * 480_u32).map(|at| (at * 7 % 251) as u8).collect();
    let mut robot = Robot::default();
    let mut realtime = Realtime::new(&mut house, TICK);
    if let Some(path) = std::env::args().nth(2) {
        let names = SERVERS.map(|(name, ..)| name.to_owned()).to_vec();
        let settings = Settings {
            names,
            every: 40, // 10 ms
            ..Settings::default()
        };
        realtime.record(File::create(path)?, &settings)?;
    }
    realtime.run(|unit| robot.work(unit, &picture))?;
    realtime.end_record()?;
    println!("{:?}", realtime.counts());
    for (server, sender) in senders.into_iter().enumerate() {
        let sent = sender.join().expect("the sender does not panic");
        report(&house, server, &robot.tallies[server], sent);
    }
    let (place, brightness) = (robot.place, robot.brightness);
    println!(
        "the arm is at {place:.3} of 1; brightness {brightness}, checksum {:08x}",
        robot.checksum
    );
    Ok(())
}
