//! One side goes away. A client that is dropped has ended, so its server closes; a client of a house that was dropped gets an error.
//! So each of these ends, within a second, and none leaves a thread that waits for ever.

mod within;

use cbs::{Client, Ended, House, Job, JobError, Mode, Plan, Refused, SendError};
use std::thread::{self, JoinHandle};
use std::time::Duration;
use within::within_a_second;

fn open<T>(servers: usize, ring: usize) -> (House<T>, Vec<Client<T>>) {
    let mut plan = Plan::new();
    for mode in [Mode::Soft, Mode::Soft, Mode::Throttled, Mode::Soft]
        .iter()
        .take(servers)
    {
        plan.admit(1, 4, *mode).unwrap();
    }
    plan.open(4, ring).unwrap()
}

/// Sends so many jobs, and waits for a place in the ring.
fn send(client: &mut Client, jobs: u64, units: u32) -> Result<(), SendError> {
    for token in 0..jobs {
        client.blocking_send(token, units)?;
    }
    Ok(())
}

/// Starts a sender, whose client is dropped when it has sent so many jobs, or when a send is refused.
fn start(mut client: Client, jobs: u64, units: u32) -> JoinHandle<Result<(), SendError>> {
    thread::spawn(move || send(&mut client, jobs, units))
}

/// Serves until each client has ended, and returns how many jobs were finished in all.
fn serve(house: &mut House) -> u64 {
    let mut finished = 0;
    let ended = house.run_until_closed(|unit| finished += u64::from(unit.is_last()));
    assert_eq!(ended, Ok(Ended::Closed));
    for server in 0..house.servers() {
        let view = house.view(server).unwrap();
        assert!(view.closed && view.finished == view.accepted);
    }
    finished
}

#[test]
fn a_sender_fails_at_its_first_job() {
    within_a_second(|| {
        let (mut house, mut clients) = open(1, 4);
        let sender = start(clients.remove(0), 10, 0);
        assert_eq!(serve(&mut house), 0);
        assert_eq!(sender.join().unwrap(), Err(SendError::EmptyJob));
    });
}

#[test]
fn a_sender_returns_without_an_end() {
    within_a_second(|| {
        let (mut house, mut clients) = open(1, 4);
        let sender = start(clients.remove(0), 3, 2);
        assert_eq!(serve(&mut house), 3);
        assert_eq!(sender.join().unwrap(), Ok(()));
    });
}

#[test]
fn a_sender_panics() {
    within_a_second(|| {
        let (mut house, mut clients) = open(1, 4);
        let mut client = clients.remove(0);
        let sender: JoinHandle<()> = thread::spawn(move || {
            send(&mut client, 3, 2).unwrap();
            panic!("this sender panics after three jobs");
        });
        assert_eq!(serve(&mut house), 3);
        assert!(sender.join().is_err());
    });
}

/// The thread of the second sender is not created, since no memory has room for such a stack.
#[test]
fn a_sender_never_starts() {
    within_a_second(|| {
        let (mut house, mut clients) = open(2, 4);
        let mut second = clients.pop().unwrap();
        let first = start(clients.remove(0), 5, 1);
        let refused = thread::Builder::new()
            .stack_size(1 << 47)
            .spawn(move || send(&mut second, 5, 1));
        assert!(refused.is_err());
        assert_eq!(serve(&mut house), 5);
        assert_eq!(first.join().unwrap(), Ok(()));
    });
}

/// The ring has no place for an end. The jobs in it are taken, and then the server is closed.
#[test]
fn a_client_leaves_a_full_ring() {
    within_a_second(|| {
        let (mut house, mut clients) = open(1, 2);
        send(&mut clients[0], 2, 3).unwrap();
        assert_eq!(clients[0].end(), Err(SendError::RingFull));
        drop(clients);
        assert_eq!(serve(&mut house), 2);
    });
}

/// Eight houses are dropped one after another, while four senders of each are at work and would be for ever.
#[test]
fn houses_go() {
    within_a_second(|| {
        let mut houses = Vec::new();
        let mut senders = Vec::new();
        for _ in 0..8 {
            let (house, clients) = open(4, 2);
            houses.push(house);
            senders.extend(clients.into_iter().map(|client| start(client, u64::MAX, 1)));
        }
        for (turns, mut house) in houses.into_iter().enumerate() {
            for _ in 0..100 * turns {
                let _turn = house.turn();
            }
        }
        for sender in senders {
            assert_eq!(sender.join().unwrap(), Err(SendError::HouseGone));
        }
    });
}

#[test]
fn the_end_of_a_house_is_an_error_of_each_call_that_sends() {
    let (house, mut clients) = open(1, 2);
    clients[0].send(1, 1).unwrap();
    drop(house);
    for send in [Client::send, Client::blocking_send] {
        let Refused { error, token, .. } = send(&mut clients[0], 2, 1).unwrap_err();
        assert_eq!((error, token), (SendError::HouseGone, 2));
    }
    assert_eq!(clients[0].end(), Err(SendError::HouseGone));
}

/// A house that nobody sends to sleeps, until it is told to stop by another thread.
#[test]
fn a_house_is_told_to_stop() {
    within_a_second(|| {
        let (mut house, mut clients) = open::<u64>(2, 2);
        let stopper = house.stopper();
        let teller = thread::spawn(move || {
            thread::sleep(Duration::from_millis(50));
            stopper.stop();
        });
        assert_eq!(house.run_until_closed(|_unit| {}), Ok(Ended::Stopped));
        teller.join().unwrap();
        clients[0].send(7, 1).unwrap();
        drop(clients);
        assert_eq!(serve(&mut house), 1);
    });
}

/// A sender waits at a full ring for a house that is dropped.
#[test]
fn a_house_goes_while_its_client_waits_for_a_place() {
    within_a_second(|| {
        let (house, mut clients) = open::<u64>(1, 1);
        let mut client = clients.remove(0);
        client.send(1, 1).unwrap();
        let sender =
            thread::spawn(move || client.blocking_send(2, 1).map_err(|refused| refused.error));
        thread::sleep(Duration::from_millis(50));
        drop(house);
        assert_eq!(sender.join().unwrap(), Err(SendError::HouseGone));
    });
}

/// Each handle hears of its job: of one that is done, one that panics, one in the backlog and one in the ring of a house that is
/// dropped, and one that was never sent.
#[test]
fn each_handle_hears_of_its_job() {
    within_a_second(|| {
        let (mut house, mut clients) = open::<Job>(1, 8);
        let (done, done_result) = Job::new(|unit| unit + 10);
        let (panics, panic_result) = Job::new(|unit| assert!(unit < 1, "at unit {unit}"));
        let (begun, begun_result) = Job::new(|_unit| ());
        let (waits, waits_result) = Job::new(|_unit| ());
        let (unsent, unsent_result) = Job::new(|_unit| ());
        clients[0].send(done, 2).unwrap();
        clients[0].send(panics, 3).unwrap();
        clients[0].send(begun, 2).unwrap();
        clients[0].send(waits, 1).unwrap();
        let stopper = house.stopper();
        let mut units = 0;
        let ended = house.run_until_closed(|unit| {
            unit.run();
            units += 1;
            if units == 5 {
                stopper.stop();
            }
        });
        assert_eq!(ended, Ok(Ended::Stopped));
        assert!(
            done_result.is_finished() && panic_result.is_finished() && !begun_result.is_finished()
        );
        assert_eq!(done_result.join().unwrap(), 11);
        let error = panic_result.join().unwrap_err();
        assert_eq!(error.to_string(), "the job panicked: at unit 1");
        let waiter = thread::spawn(move || waits_result.join());
        drop(house);
        assert!(matches!(begun_result.join(), Err(JobError::Lost)));
        assert!(matches!(waiter.join().unwrap(), Err(JobError::Lost)));
        drop(unsent);
        assert!(matches!(unsent_result.join(), Err(JobError::Lost)));
    });
}

/// What is counted by [`Counted`].
static ALIVE: std::sync::atomic::AtomicI64 = std::sync::atomic::AtomicI64::new(0);

/// A token that is counted while it lives.
#[derive(Debug)]
struct Counted(#[allow(dead_code)] Box<u64>);

impl Counted {
    fn new(number: u64) -> Counted {
        ALIVE.fetch_add(1, std::sync::atomic::Ordering::SeqCst);
        Counted(Box::new(number))
    }
}

impl Drop for Counted {
    fn drop(&mut self) {
        ALIVE.fetch_sub(1, std::sync::atomic::Ordering::SeqCst);
    }
}

/// Houses are dropped while their senders are at work, and each token is dropped: with its last unit, by the sender to whom it is handed
/// back, or with the house. The clients live on.
#[test]
fn no_token_leaks() {
    let mut unfinished = 0;
    for turns in 0..100 {
        let (mut house, clients) = open::<Counted>(3, 2);
        let senders: Vec<_> = clients
            .into_iter()
            .map(|mut client| {
                thread::spawn(move || {
                    let mut sent = 0;
                    while client.blocking_send(Counted::new(sent), 2).is_ok() {
                        sent += 1;
                    }
                    (client, sent)
                })
            })
            .collect();
        let (mut units, mut done) = (0, 0);
        while units < turns {
            match house.turn().ran {
                cbs::Ran::Unit(unit) => {
                    units += 1;
                    done += u64::from(unit.into_token().is_some());
                }
                _ => thread::yield_now(), // for the senders
            }
        }
        let left = house.into_unfinished();
        unfinished += left.len();
        for pair in left.windows(2) {
            assert!((pair[0].server, pair[0].seq) < (pair[1].server, pair[1].seq));
        }
        let lost = left.len() as u64;
        drop(left);
        let senders: Vec<_> = senders
            .into_iter()
            .map(|sender| sender.join().unwrap())
            .collect();
        assert_eq!(
            senders.iter().map(|(_client, sent)| sent).sum::<u64>(),
            done + lost
        );
        assert_eq!(ALIVE.load(std::sync::atomic::Ordering::SeqCst), 0);
    }
    assert!(unfinished > 0);
}
