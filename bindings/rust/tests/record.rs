//! Houses whose steps are told to a tape, or written to a file: the bytes by hand, in pieces, what is lost, and writers that fail.
//! The same if a thread writes, also with a writer that takes nothing for a while.

use cbs::realtime::{Clock, Realtime};
use cbs::record::{Recorder, Settings};
use cbs::{Bell, Client, Ended, House, Mode, Plan, Poll, Ran, TapeError};
use std::io::{self, ErrorKind, Write};
use std::sync::mpsc::{channel, Receiver};
use std::sync::{Arc, Mutex};
use std::thread;
use std::time::Duration;

/// A house of a soft and a throttled server with 2 ticks in every 5 each.
fn open() -> (House, Vec<Client>) {
    let mut plan = Plan::new();
    plan.admit(2, 5, Mode::Soft).unwrap();
    plan.admit(2, 5, Mode::Throttled).unwrap();
    plan.open(4, 4).unwrap()
}

fn submit(house: &mut House, client: &mut Client, server: usize, units: u32) {
    client.send(7, units).unwrap();
    assert_eq!(house.poll(server), Ok(Poll::Took));
}

fn runs(house: &mut House, server: usize) {
    match house.run() {
        Ran::Unit(unit) => assert_eq!(unit.server, server),
        _ => panic!("no unit"),
    }
}

#[test]
fn a_tape_is_taken_in_pieces() {
    let (mut house, mut clients) = open();
    house.record(100).unwrap();
    submit(&mut house, &mut clients[0], 0, 3);
    submit(&mut house, &mut clients[1], 1, 4);
    runs(&mut house, 0);
    house.charge(0, 2).unwrap();
    runs(&mut house, 1);
    house.charge(1, 0).unwrap();
    runs(&mut house, 1);
    let mut tape = Vec::new();
    house.take_tape(&mut tape).unwrap();
    assert_eq!(tape, [0x40, 3, 0x41, 4, 0xC0, 0x80, 2, 0xC1]);
    house.take_tape(&mut tape).unwrap();
    assert_eq!(tape.len(), 8);
    house.advance(5).unwrap();
    clients[1].end().unwrap();
    assert_eq!(house.poll(1), Ok(Poll::Closed));
    assert_eq!(house.tape_lost(), Ok(false));
    house.end_tape(&mut tape).unwrap();
    assert_eq!(tape[8..], [2, 5, 3, 1, 4]);
    assert_eq!(house.tape_lost(), Err(TapeError::NoTape));
    assert_eq!(house.take_tape(&mut tape), Err(TapeError::NoTape));
    assert_eq!(house.end_tape(&mut tape), Err(TapeError::NoTape));
    assert_eq!(tape.len(), 13);
}

#[test]
fn what_is_lost_is_told() {
    let (mut house, mut clients) = open();
    house.record(100).unwrap();
    submit(&mut house, &mut clients[0], 0, 3);
    match house.run() {
        Ran::Unit(unit) => assert_eq!(unit.finish(), 7),
        _ => panic!("no unit"),
    }
    house.advance(1).unwrap();
    assert_eq!(house.tape_lost(), Ok(true));
    let mut tape = vec![9];
    house.end_tape(&mut tape).unwrap();
    assert_eq!(tape, [9, 0x40, 3, 0xC0]); // no mark
    house.record(0).unwrap();
    house.advance(7).unwrap();
    house.advance(7).unwrap();
    house.end_tape(&mut tape).unwrap();
    assert_eq!(tape, [9, 0x40, 3, 0xC0, 2, 7]);
}

/// The system's number for a disk with no room, ENOSPC.
const FULL: i32 = 28;

/// A writer into a place that the test keeps, with room for so many bytes.
#[derive(Clone)]
struct Kept {
    bytes: Arc<Mutex<Vec<u8>>>,
    room: usize,
}

impl Kept {
    fn with_room(room: usize) -> Kept {
        let bytes = Arc::default();
        Kept { bytes, room }
    }

    fn bytes(&self) -> Vec<u8> {
        self.bytes.lock().unwrap().clone()
    }

    fn steps(&self) -> Vec<u8> {
        steps_of(&self.bytes())
    }
}

/// Returns the CRC-32 of bytes, bit by bit, from that of the bytes before them.
fn sum_after(sum: u32, bytes: &[u8]) -> u32 {
    let mut register = !sum;
    for byte in bytes {
        register ^= u32::from(*byte);
        for _ in 0..8 {
            register = (register >> 1) ^ (0xEDB8_8320 * (register & 1));
        }
    }
    !register
}

/// Returns the steps that the blocks of a file have. Each has to be right; one that is cut is left out.
fn steps_of(file: &[u8]) -> Vec<u8> {
    let text = file.iter().position(|byte| *byte == 3).unwrap() + 1;
    let mut sum = sum_after(0, &file[..text]);
    let (mut steps, mut rest) = (Vec::new(), &file[text..]);
    while let [low, middle, high, check, ..] = *rest {
        assert_eq!(low ^ middle ^ high ^ check, 255);
        let end = 4 + usize::from(low) + 256 * usize::from(middle) + 65536 * usize::from(high);
        if rest.len() < end + 4 {
            break;
        }
        sum = sum_after(sum, &rest[..end]);
        assert_eq!(rest[end..end + 4], sum.to_le_bytes());
        steps.extend_from_slice(&rest[4..end]);
        rest = &rest[end + 4..];
    }
    steps
}

impl Write for Kept {
    fn write(&mut self, more: &[u8]) -> io::Result<usize> {
        let mut bytes = self.bytes.lock().unwrap();
        let n = more.len().min(self.room - bytes.len());
        bytes.extend(&more[..n]);
        match n {
            0 => Err(io::Error::from_raw_os_error(FULL)),
            n => Ok(n),
        }
    }

    fn flush(&mut self) -> io::Result<()> {
        Ok(())
    }
}

const HEAD: &str = "record = 1
tick = \"1500 ns\"
bound = [1, 1]
backlog = 4
server = [
  { name = \"control\", mode = \"soft\", budget = 2, period = 5 },
  { name = \"server-1\", mode = \"throttled\", budget = 2, period = 5 },
]
\x03";

/// How many bytes a file has with no step: the text, and a block with none.
const BEGUN: usize = HEAD.len() + 8;

fn settings() -> Settings {
    Settings {
        names: vec!["control".into()],
        tick: Some(Duration::from_nanos(1500)),
        bytes: 100,
        ..Settings::default()
    }
}

#[test]
fn a_file_has_what_the_house_is_and_each_step() {
    let (mut house, mut clients) = open();
    let kept = Kept::with_room(1000);
    let mut recorder = Recorder::new(&mut house, kept.clone(), &settings()).unwrap();
    assert_eq!(kept.bytes().len(), BEGUN);
    assert_eq!(kept.bytes()[..HEAD.len()], *HEAD.as_bytes());
    submit(&mut house, &mut clients[0], 0, 3);
    runs(&mut house, 0);
    recorder.step(&mut house);
    recorder.step(&mut house);
    assert_eq!(kept.steps(), [0x40, 3, 0xC0]);
    house.advance(300).unwrap();
    assert_eq!(recorder.bytes(), 3);
    assert!(recorder.error().is_none());
    recorder.end(&mut house).unwrap();
    assert_eq!(kept.steps(), [0x40, 3, 0xC0, 2, 253, 0x2C, 1, 4]);
    // The sums are those of Python's zlib.crc32.
    let blocks: [&[u8]; 3] = [
        &[0, 0, 0, 255, 0xCC, 0x7E, 0x18, 0xC6],
        &[3, 0, 0, 252, 0x40, 3, 0xC0, 0x98, 0x84, 0xC4, 0x99],
        &[5, 0, 0, 250, 2, 253, 0x2C, 1, 4, 0x4D, 0x2B, 0x7D, 0x9D],
    ];
    assert_eq!(kept.bytes()[HEAD.len()..], blocks.concat());
    assert_eq!(house.tape_lost(), Err(TapeError::NoTape));
}

#[test]
fn nothing_is_written_before_so_many_ticks() {
    let (mut house, _clients) = open();
    let kept = Kept::with_room(1000);
    let seldom = Settings {
        every: 10,
        ..settings()
    };
    let mut recorder = Recorder::new(&mut house, kept.clone(), &seldom).unwrap();
    house.advance(7).unwrap();
    recorder.step(&mut house); // the first call writes
    assert_eq!(recorder.bytes(), 2);
    house.advance(3).unwrap();
    recorder.step(&mut house); // 3 ticks later
    assert_eq!(recorder.bytes(), 2);
    house.advance(9).unwrap();
    recorder.step(&mut house); // 12 ticks later
    assert_eq!(recorder.bytes(), 6);
    recorder.end(&mut house).unwrap();
    assert_eq!(kept.steps(), [2, 7, 2, 3, 2, 9, 4]);
}

#[test]
fn a_step_that_was_lost_leaves_no_mark() {
    let (mut house, _clients) = open();
    let kept = Kept::with_room(1000);
    let small = Settings {
        bytes: 0,
        ..settings()
    };
    let recorder = Recorder::new(&mut house, kept.clone(), &small).unwrap();
    house.advance(7).unwrap();
    house.advance(7).unwrap();
    recorder.end(&mut house).unwrap();
    assert_eq!(kept.steps(), [2, 7]);
}

#[test]
fn an_error_of_the_writer_ends_the_recording_alone() {
    let (mut house, mut clients) = open();
    let none = Recorder::new(&mut house, Kept::with_room(BEGUN - 1), &settings());
    assert_eq!(none.unwrap_err().raw_os_error(), Some(FULL));
    assert_eq!(house.tape_lost(), Err(TapeError::NoTape));
    let kept = Kept::with_room(BEGUN + 15); // for a block of two bytes, and a part of the next one
    let mut recorder = Recorder::new(&mut house, kept.clone(), &settings()).unwrap();
    submit(&mut house, &mut clients[0], 0, 3);
    recorder.step(&mut house);
    assert!(recorder.error().is_none());
    runs(&mut house, 0);
    recorder.step(&mut house);
    assert_eq!(recorder.error().unwrap().raw_os_error(), Some(FULL));
    assert_eq!(house.tape_lost(), Err(TapeError::NoTape));
    runs(&mut house, 0); // the house goes on
    recorder.step(&mut house);
    assert_eq!(recorder.bytes(), 2);
    assert_eq!(
        recorder.end(&mut house).unwrap_err().raw_os_error(),
        Some(FULL)
    );
    assert_eq!(kept.steps(), [0x40, 3]);
}

#[test]
fn wrong_names_and_ticks_are_refused() {
    let (mut house, _clients) = open();
    let long = "a".repeat(33);
    for names in [
        ["a", "a"],
        ["a", ""],
        ["a b", "c"],
        [&long, "c"],
        ["server-1", "server-1"],
    ] {
        let settings = Settings {
            names: names.map(String::from).into(),
            ..settings()
        };
        let none = Recorder::new(&mut house, Kept::with_room(0), &settings);
        assert_eq!(
            none.unwrap_err().kind(),
            ErrorKind::InvalidInput,
            "{names:?}"
        );
    }
    for tick in [Duration::ZERO, Duration::from_nanos(1_000_000_001)] {
        let settings = Settings {
            tick: Some(tick),
            ..settings()
        };
        let none = Recorder::new(&mut house, Kept::with_room(0), &settings);
        assert_eq!(
            none.unwrap_err().kind(),
            ErrorKind::InvalidInput,
            "{tick:?}"
        );
    }
    let large = Settings {
        bytes: 16_777_185,
        ..settings()
    };
    let none = Recorder::new(&mut house, Kept::with_room(0), &large);
    assert_eq!(none.unwrap_err().kind(), ErrorKind::InvalidInput);
    assert_eq!(house.tape_lost(), Err(TapeError::NoTape));
}

#[test]
fn a_house_that_made_a_step_is_refused() {
    let steps: [fn(&mut House, &mut Vec<Client>); 3] = [
        |house, clients| submit(house, &mut clients[1], 1, 3),
        |house, _clients| house.advance(1).unwrap(),
        |house, clients| {
            clients[1].end().unwrap();
            assert_eq!(house.poll(1), Ok(Poll::Closed));
        },
    ];
    for step in steps {
        let (mut house, mut clients) = open();
        step(&mut house, &mut clients);
        let none = Recorder::new(&mut house, Kept::with_room(1000), &settings());
        assert_eq!(none.unwrap_err().kind(), ErrorKind::InvalidInput);
        assert_eq!(house.tape_lost(), Err(TapeError::NoTape));
    }
}

/// A clock that shows the time of the last wait, and then a microsecond more each time.
struct Counted(Duration);

impl Clock for Counted {
    fn now(&mut self) -> Duration {
        self.0 += Duration::from_micros(1);
        self.0
    }

    fn sleep_until(&mut self, time: Duration) {
        self.0 = self.0.max(time);
    }

    fn wait(&mut self, _bell: &Bell, until: Option<Duration>) {
        self.0 = self.0.max(until.expect("somebody waits for a deadline"));
    }
}

#[test]
fn a_loop_in_real_time_writes_its_steps() {
    let mut plan = Plan::new();
    plan.admit(2, 5, Mode::Throttled).unwrap();
    let (mut house, mut clients) = plan.open(4, 4).unwrap();
    clients[0].send(7, 3).unwrap();
    drop(clients);
    let kept = Kept::with_room(1000);
    let mut realtime = Realtime::with_clock(
        &mut house,
        Duration::from_millis(1),
        Counted(Duration::ZERO),
    );
    realtime.record(kept.clone(), &Settings::default()).unwrap();
    assert_eq!(realtime.run(|_| {}).unwrap(), Ended::Closed);
    assert!(realtime.recorder().unwrap().error().is_none());
    realtime.end_record().unwrap();
    assert!(realtime.recorder().is_none());
    realtime.end_record().unwrap();
    let bytes = kept.bytes();
    let end = bytes.iter().position(|byte| *byte == 3).unwrap();
    let text = std::str::from_utf8(&bytes[..end]).unwrap();
    assert!(
        text.contains("tick = \"1000000 ns\"\n")
            && text.contains("\"server-0\", mode = \"throttled\"")
    );
    // A job of three units, and the first of them; the client's end, which the next question takes; a unit; three ticks until the
    // deadline; the third unit; the mark.
    assert_eq!(steps_of(&bytes), [0x40, 3, 0xC0, 3, 0, 0xC0, 2, 3, 0xC0, 4]);
}

/// Does 300 rounds of a job, its two units and some ticks, and steps after each. Returns what comes of the end.
fn records(to: impl Write + Send + 'static, settings: &Settings) -> io::Result<()> {
    let (mut house, mut clients) = open();
    let mut recorder = Recorder::new(&mut house, to, settings)?;
    for round in 0..300 {
        submit(&mut house, &mut clients[0], 0, 2);
        runs(&mut house, 0);
        house.charge(0, round % 3).unwrap();
        runs(&mut house, 0);
        house.advance(round % 7).unwrap();
        recorder.step(&mut house);
    }
    let end = recorder.end(&mut house);
    assert_eq!(house.tape_lost(), Err(TapeError::NoTape));
    end
}

/// Settings with a tape that has room for all.
fn in_blocks(blocks: usize, every: u64) -> Settings {
    Settings {
        bytes: 10_000,
        blocks,
        every,
        ..settings()
    }
}

#[test]
fn a_thread_writes_what_the_serving_thread_writes() {
    let wanted = Kept::with_room(10_000);
    records(wanted.clone(), &in_blocks(0, 0)).unwrap();
    assert_eq!(wanted.steps().last(), Some(&4));
    for (blocks, every) in [(1, 0), (4, 0), (2, 50), (3, 1000)] {
        let kept = Kept::with_room(10_000);
        records(kept.clone(), &in_blocks(blocks, every)).unwrap();
        assert_eq!(kept.steps(), wanted.steps(), "{blocks} {every}");
    }
}

/// A writer that waits, once the head is written, until the test has dropped the sender.
struct Stuck(Kept, Receiver<()>);

impl Write for Stuck {
    fn write(&mut self, more: &[u8]) -> io::Result<usize> {
        if !self.0.bytes().is_empty() {
            let _ = self.1.recv(); // the sender is gone
        }
        self.0.write(more)
    }

    fn flush(&mut self) -> io::Result<()> {
        Ok(())
    }
}

#[test]
fn a_step_never_waits_for_the_writer() {
    let (mut house, mut clients) = open();
    let kept = Kept::with_room(10_000);
    let (sender, receiver) = channel::<()>();
    let settings = Settings {
        blocks: 3,
        ..settings()
    };
    let to = Stuck(kept.clone(), receiver);
    let mut recorder = Recorder::new(&mut house, to, &settings).unwrap();
    let mut made = 0;
    while house.tape_lost() == Ok(false) {
        made += 1;
        house.advance(made % 250).unwrap();
        recorder.step(&mut house);
    }
    submit(&mut house, &mut clients[0], 0, 3); // the house goes on
    runs(&mut house, 0);
    recorder.step(&mut house);
    assert!(recorder.error().is_none() && recorder.bytes() == 0);
    drop(sender);
    recorder.end(&mut house).unwrap();
    // What was lost is after the last step in the file, and there is no mark.
    let steps: Vec<u8> = (1..made).flat_map(|n| [2, n as u8]).collect();
    assert_eq!(kept.steps(), steps);
}

#[test]
fn an_error_in_the_thread_ends_the_recording_alone() {
    let (mut house, mut clients) = open();
    let kept = Kept::with_room(BEGUN + 15); // for a block of two bytes, and a part of the next one
    let settings = Settings {
        blocks: 2,
        ..settings()
    };
    let mut recorder = Recorder::new(&mut house, kept.clone(), &settings).unwrap();
    submit(&mut house, &mut clients[0], 0, 3);
    recorder.step(&mut house);
    while recorder.bytes() < 2 {
        thread::yield_now();
    }
    runs(&mut house, 0);
    while recorder.error().is_none() {
        recorder.step(&mut house);
        thread::yield_now();
    }
    let error = recorder.error().unwrap().raw_os_error();
    assert_eq!(error, Some(FULL));
    assert_eq!(house.tape_lost(), Err(TapeError::NoTape));
    runs(&mut house, 0); // the house goes on
    recorder.step(&mut house);
    assert_eq!(recorder.bytes(), 2);
    let error = recorder.end(&mut house).unwrap_err();
    assert_eq!(error.raw_os_error(), Some(FULL));
    assert_eq!(kept.steps(), [0x40, 3]);
}

#[test]
fn an_error_in_the_thread_is_told_at_the_end() {
    for room in [0, 1, 100, 1000] {
        let kept = Kept::with_room(BEGUN + room);
        let error = records(kept.clone(), &in_blocks(2, 0)).unwrap_err();
        assert_eq!(error.raw_os_error(), Some(FULL));
        let wanted = Kept::with_room(10_000);
        records(wanted.clone(), &in_blocks(0, 0)).unwrap();
        assert!(kept.bytes().len() == BEGUN + room && wanted.steps().starts_with(&kept.steps()));
    }
}

/// A writer that panics, once the head is written.
struct Panics(bool);

impl Write for Panics {
    fn write(&mut self, more: &[u8]) -> io::Result<usize> {
        assert!(!self.0, "the writer of a test");
        self.0 = true;
        Ok(more.len())
    }

    fn flush(&mut self) -> io::Result<()> {
        Ok(())
    }
}

#[test]
fn a_writer_that_panics_in_the_thread_ends_the_recording_alone() {
    let error = records(Panics(false), &in_blocks(2, 0)).unwrap_err();
    assert_eq!(error.to_string(), "the writer panicked");
}

#[test]
fn a_recorder_that_is_dropped_has_written_what_it_was_given() {
    let (mut house, mut clients) = open();
    let kept = Kept::with_room(1000);
    let settings = Settings {
        blocks: 2,
        ..settings()
    };
    let mut recorder = Recorder::new(&mut house, kept.clone(), &settings).unwrap();
    submit(&mut house, &mut clients[0], 0, 3);
    recorder.step(&mut house);
    runs(&mut house, 0);
    drop(recorder);
    assert_eq!(kept.steps(), [0x40, 3]);
}

#[test]
fn a_loop_in_real_time_gives_its_steps() {
    let mut plan = Plan::new();
    plan.admit(2, 5, Mode::Throttled).unwrap();
    let (mut house, mut clients) = plan.open(4, 4).unwrap();
    clients[0].send(7, 3).unwrap();
    drop(clients);
    let kept = Kept::with_room(1000);
    let clock = Counted(Duration::ZERO);
    let mut realtime = Realtime::with_clock(&mut house, Duration::from_millis(1), clock);
    realtime.record(kept.clone(), &in_blocks(4, 0)).unwrap();
    assert_eq!(realtime.run(|_| {}).unwrap(), Ended::Closed);
    realtime.end_record().unwrap();
    assert_eq!(kept.steps(), [0x40, 3, 0xC0, 3, 0, 0xC0, 2, 3, 0xC0, 4]);
}
