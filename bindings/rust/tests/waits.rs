//! Calls that wait. Each that waits for a time comes back. In a unit each that would wait for its own house is refused: none hangs.

mod within;

use cbs::realtime::{Next, Realtime, Rounding};
use cbs::{Client, Ended, House, Job, JobError, JobHandle, Mode, Plan, Ran, SendError, Unit};
use std::sync::mpsc;
use std::thread;
use std::time::{Duration, Instant};
use within::within_a_second;

/// A time that is over soon, and one that no test waits for.
const SHORT: Duration = Duration::from_millis(20);
const LONG: Duration = Duration::from_secs(1000);

/// Opens a house of two servers, each with a ring and a backlog of one job.
fn open<T>() -> (House<T>, Client<T>, Client<T>) {
    let mut plan = Plan::new();
    for _ in 0..2 {
        plan.admit(1, 4, Mode::Soft).unwrap();
    }
    let (house, mut clients) = plan.open(1, 1).unwrap();
    let second = clients.remove(1);
    (house, clients.remove(0), second)
}

/// Each call that sends and may wait.
type Sends<T> = fn(&mut Client<T>, T) -> Result<u64, cbs::Refused<T>>;

fn sends<T>() -> [Sends<T>; 4] {
    [
        |client, token| client.blocking_send(token, 1),
        |client, token| client.send_timeout(token, 1, Duration::ZERO),
        |client, token| client.send_timeout(token, 1, LONG),
        |client, token| client.send_timeout(token, 1, Duration::MAX),
    ]
}

/// Each call that waits for a job.
type Joins = fn(JobHandle<u32>) -> Result<u32, JobError>;

const JOINS: [Joins; 4] = [
    |handle| handle.join(),
    |handle| Ok(handle.join_timeout(Duration::ZERO)?),
    |handle| Ok(handle.join_timeout(LONG)?),
    |handle| Ok(handle.join_timeout(Duration::MAX)?),
];

/// Each way to serve, until all is over.
type Serves<T> = fn(&mut House<T>, &mut dyn FnMut(Unit<'_, T>));

fn serves<T>() -> [Serves<T>; 4] {
    [
        |house, work| assert_eq!(house.run_until_closed(work), Ok(Ended::Closed)),
        |house, work| {
            let mut realtime = Realtime::new(house, Duration::from_micros(10));
            assert_eq!(realtime.run(work), Ok(Ended::Closed));
        },
        |house, work| loop {
            let turn = house.turn();
            let over = turn.over;
            if let Ran::Unit(unit) = turn.ran {
                unit.done_by(&mut *work);
            }
            if over {
                break;
            }
        },
        |house, work| {
            let mut time = Duration::ZERO;
            let mut pacer = house.pace(SHORT, Rounding::Up, time);
            loop {
                match house.next(&mut pacer, time) {
                    Next::Do(unit) => unit.done_by(&mut *work),
                    Next::Over => break,
                    _ => {}
                }
                time += SHORT;
            }
        },
    ]
}

#[test]
fn a_unit_that_would_wait_for_room_in_its_own_house_is_refused() {
    for serve in serves::<&str>() {
        for send in sends() {
            within_a_second(move || {
                let (mut house, mut first, mut second) = open();
                first.send("begins", 2).unwrap();
                let mut clients = Some((first, second.send("fills", 1).map(|_| second).unwrap()));
                let mut refused = 0;
                serve(&mut house, &mut |unit| {
                    // To another server of the house, and to its own, with room and without.
                    if let Some((first, second)) = &mut clients {
                        for client in [first, second] {
                            let error = send(client, "waits").unwrap_err();
                            assert_eq!((error.error, error.token), (SendError::InUnit, "waits"));
                            refused += 1;
                        }
                    }
                    if unit.is_last() {
                        clients = None;
                    }
                });
                assert_eq!(refused % 2, 0);
                assert!(refused > 0);
            });
        }
    }
}

#[test]
fn a_unit_sends_without_waiting() {
    for serve in serves::<u64>() {
        within_a_second(move || {
            let (mut house, mut first, second) = open();
            first.send(0, 1).unwrap();
            let mut second = Some(second);
            drop(first);
            let mut tokens = Vec::new();
            serve(&mut house, &mut |unit| {
                tokens.push(*unit.token);
                if let Some(mut client) = second.take() {
                    assert_eq!(client.send(1, 1), Ok(0));
                    assert_eq!(client.send(2, 1).unwrap_err().error, SendError::RingFull);
                }
            });
            assert_eq!(tokens, [0, 1]);
        });
    }
}

/// A job that waits for one of another server of its house, and one that waits for itself.
#[test]
fn a_unit_that_would_wait_for_a_job_of_its_own_house_is_refused() {
    for join in JOINS {
        within_a_second(move || {
            let (mut house, mut first, mut second) = open();
            let (behind, behind_handle) = Job::new(|unit| unit);
            let (told, tells) = mpsc::channel::<JobHandle<u32>>();
            let (waits, handle) = Job::new(move |_unit| {
                let mine = tells.recv().unwrap();
                assert!(matches!(join(mine), Err(JobError::InUnit)));
                0
            });
            let mut behind_handle = Some(behind_handle);
            let (other, other_handle) = Job::new(move |_unit| {
                behind_handle.take().map(|handle| match join(handle) {
                    Err(JobError::InUnit) => (),
                    other => panic!("{other:?}"),
                })
            });
            told.send(handle).unwrap();
            first.send(waits, 1).unwrap();
            second.send(other, 1).unwrap();
            let sender = thread::spawn(move || second.blocking_send(behind, 1).unwrap());
            drop(first);
            assert_eq!(house.run_jobs(), Ok(Ended::Closed));
            sender.join().unwrap();
            assert!(matches!(other_handle.join(), Ok(Some(()))));
        });
    }
}

#[test]
fn a_join_that_is_refused_in_a_unit_hands_back_the_handle() {
    within_a_second(|| {
        let (mut house, mut first, mut second) = open();
        let (late, late_handle) = Job::new(|unit| unit + 7);
        let mut late_handle = Some(late_handle);
        let (early, early_handle) = Job::new(move |_unit| {
            let refused = late_handle.take()?.join_timeout(LONG).unwrap_err();
            assert!(matches!(refused.error, JobError::InUnit));
            refused.handle
        });
        first.send(early, 1).unwrap();
        second.send(late, 1).unwrap();
        drop((first, second));
        let mut units = 0;
        while units < 2 {
            if let Ran::Unit(unit) = house.turn().ran {
                unit.run(); // a unit that is run by hand, too
                units += 1;
            }
        }
        let handed_back = early_handle.join().unwrap().expect("the handle came back");
        assert_eq!(handed_back.join().unwrap(), 7);
    });
}

/// What has ended is not waited for.
#[test]
fn a_unit_takes_the_result_of_a_job_that_has_ended() {
    for join in JOINS {
        within_a_second(move || {
            let (mut house, mut first, mut second) = open();
            let (early, early_handle) = Job::new(|unit| unit + 7);
            let mut early_handle = Some(early_handle);
            let (late, late_handle) =
                Job::new(move |_unit| early_handle.take().map(|handle| join(handle).unwrap()));
            first.send(early, 1).unwrap();
            second.send(late, 1).unwrap();
            drop((first, second));
            assert_eq!(house.run_jobs(), Ok(Ended::Closed));
            assert_eq!(late_handle.join().unwrap(), Some(7));
        });
    }
}

/// A unit of one house waits for room in another, which another thread serves.
#[test]
fn a_unit_waits_for_another_house() {
    for send in [sends()[0], sends()[2]] {
        within_a_second(move || {
            let (mut house, mut client, unused) = open::<u64>();
            let (mut other, mut to_other, unused_other) = open::<u64>();
            client.send(0, 1).unwrap();
            drop((client, unused, unused_other));
            let server = thread::spawn(move || {
                thread::sleep(SHORT);
                let mut units = 0;
                other.run_until_closed(|_unit| units += 1).unwrap();
                units
            });
            let mut units = 0;
            house
                .run_until_closed(|_unit| {
                    for token in 0..9 {
                        send(&mut to_other, token).unwrap();
                    }
                    units += 1;
                })
                .unwrap();
            assert_eq!(units, 1);
            drop(to_other);
            assert_eq!(server.join().unwrap(), 9);
        });
    }
}

#[test]
fn in_a_house_that_is_served_in_a_unit_both_are_refused() {
    within_a_second(|| {
        let (mut outer, mut client, mut second) = open::<u64>();
        client.send(0, 1).unwrap();
        drop(client);
        let mut errors = Vec::new();
        let mut inner = Some(open::<u64>());
        let mut wait = |client: &mut Client| {
            errors.push(client.blocking_send(1, 1).unwrap_err().error);
        };
        let stopper = outer.stopper();
        let ended = outer.run_until_closed(|_unit| {
            let (mut house, mut first, other) = inner.take().unwrap();
            drop(other);
            // No unit of the inner house is done yet.
            first.blocking_send(0, 1).unwrap();
            let mut first = Some(first);
            let ended = house.run_until_closed(|_unit| {
                wait(&mut second);
                wait(&mut first.take().unwrap());
            });
            assert_eq!(ended, Ok(Ended::Closed));
            wait(&mut second); // still in the unit of the outer one
            stopper.stop();
        });
        assert_eq!(ended, Ok(Ended::Stopped));
        assert_eq!(errors, [SendError::InUnit; 3]);
        // No unit is done any more.
        second.blocking_send(1, 1).unwrap();
        let refused = second.send_timeout(2, 1, SHORT).unwrap_err();
        assert_eq!((refused.error, refused.token), (SendError::RingFull, 2));
    });
}

/// A unit that panics is over.
#[test]
fn after_a_unit_that_panicked_its_thread_may_wait() {
    within_a_second(|| {
        let (mut house, mut client, _) = open::<u64>();
        client.send(0, 2).unwrap();
        let panics = std::panic::catch_unwind(std::panic::AssertUnwindSafe(|| {
            house.run_until_closed(|_unit| std::panic::panic_any(7_u8))
        }));
        assert!(panics.is_err());
        assert_eq!(client.blocking_send(1, 1), Ok(1));
        let (job, handle) = Job::new(|unit| unit);
        let loser = thread::spawn(move || {
            thread::sleep(SHORT);
            drop(job);
        });
        assert!(matches!(handle.join(), Err(JobError::Lost)));
        loser.join().unwrap();
    });
}

#[test]
fn a_send_waits_no_longer_than_it_was_told() {
    within_a_second(|| {
        let (mut house, mut client, _) = open();
        client.send(String::from("fills"), 1).unwrap();
        let began = Instant::now();
        let refused = client
            .send_timeout(String::from("waits"), 1, SHORT)
            .unwrap_err();
        assert!(began.elapsed() >= SHORT);
        assert_eq!(refused.error, SendError::RingFull);
        assert_eq!(refused.token, "waits");
        let refused = client.send_timeout(refused.token, 1, Duration::ZERO);
        let token = refused.unwrap_err().token;

        // The house polls, and there is room.
        let server = thread::spawn(move || {
            thread::sleep(SHORT);
            let _ = house.turn();
            house
        });
        assert_eq!(client.send_timeout(token, 1, LONG), Ok(1));
        let house = server.join().unwrap();

        // The house goes.
        let server = thread::spawn(move || {
            thread::sleep(SHORT);
            drop(house);
        });
        let refused = client.send_timeout(String::from("is late"), 1, LONG);
        let refused = refused.unwrap_err();
        assert_eq!(
            (refused.error, refused.token.as_str()),
            (SendError::HouseGone, "is late")
        );
        server.join().unwrap();
    });
}

#[test]
fn a_send_that_waits_is_refused_as_any_other() {
    let (_house, mut client, _) = open();
    for (units, error) in [(0, SendError::EmptyJob), (1_000_001, SendError::TooLong)] {
        let refused = client.send_timeout("waits", units, LONG).unwrap_err();
        assert_eq!((refused.error, refused.token), (error, "waits"));
    }
    client.end().unwrap();
    let refused = client.send_timeout("waits", 1, LONG).unwrap_err();
    assert_eq!((refused.error, refused.token), (SendError::Ended, "waits"));
}

#[test]
fn a_join_waits_no_longer_than_it_was_told() {
    within_a_second(|| {
        let (mut house, mut client, second) = open();
        drop(second);
        let (job, handle) = Job::new(|unit| unit);
        client.send(job, 3).unwrap();
        let began = Instant::now();
        let refused = handle.join_timeout(SHORT).unwrap_err();
        assert!(began.elapsed() >= SHORT);
        assert!(matches!(refused.error, JobError::TimedOut));
        let refused = refused.handle.unwrap().join_timeout(Duration::ZERO);
        let handle = refused.unwrap_err().handle.unwrap();
        drop(client);
        let server = thread::spawn(move || {
            thread::sleep(SHORT);
            house.run_jobs().unwrap();
        });
        assert_eq!(handle.join_timeout(LONG).unwrap(), 2);
        server.join().unwrap();

        // A job that is lost has no handle any more.
        let (job, handle) = Job::new(|unit| unit);
        let loser = thread::spawn(move || {
            thread::sleep(SHORT);
            drop(job);
        });
        let lost = handle.join_timeout(LONG).unwrap_err();
        assert!(matches!(lost.error, JobError::Lost) && lost.handle.is_none());
        loser.join().unwrap();
    });
}

#[test]
fn each_error_has_its_text() {
    assert_eq!(
        SendError::InUnit.to_string(),
        "a unit of the house would wait for its own house: send there without waiting"
    );
    assert_eq!(SendError::InUnit.status(), u32::MAX);
    assert_eq!(
        JobError::InUnit.to_string(),
        "a unit does not wait for a job, lest it wait for its own house"
    );
    let (_job, handle) = Job::new(|unit| unit);
    let refused = handle.join_timeout(Duration::ZERO).unwrap_err();
    assert_eq!(refused.to_string(), "the job has not ended in time");
    assert_eq!(format!("{refused:?}"), "NotJoined { error: TimedOut, .. }");
}
