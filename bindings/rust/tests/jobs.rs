//! Jobs that are closures, and their handles.

use cbs::{Client, Ended, House, Job, JobError, JobHandle, Mode, Plan};
use std::future::Future;
use std::ops::ControlFlow;
use std::pin::Pin;
use std::sync::Arc;
use std::task::{Context, Poll, Wake};
use std::thread::{self, Thread};

fn open() -> (House<Job>, Client<Job>) {
    let mut plan = Plan::new();
    plan.admit(1, 4, Mode::Soft).unwrap();
    let (house, mut clients) = plan.open(4, 4).unwrap();
    (house, clients.remove(0))
}

/// Unparks a thread.
struct Unparks(Thread);

impl Wake for Unparks {
    fn wake(self: Arc<Self>) {
        self.0.unpark();
    }
}

/// Waits for a handle as an executor does.
fn block_on<R>(mut handle: JobHandle<R>) -> Result<R, JobError> {
    let waker = Arc::new(Unparks(thread::current())).into();
    loop {
        match Pin::new(&mut handle).poll(&mut Context::from_waker(&waker)) {
            Poll::Ready(result) => return result,
            Poll::Pending => thread::park(),
        }
    }
}

#[test]
fn a_closure_is_called_once_for_each_unit() {
    let (mut house, mut client) = open();
    let mut seen = Vec::new();
    let (job, handle) = Job::new(move |unit| {
        seen.push(unit);
        seen.clone()
    });
    client.send(job, 5).unwrap();
    drop(client);
    assert!(!handle.is_finished());
    assert_eq!(house.run_jobs(), Ok(Ended::Closed));
    assert!(handle.is_finished());
    assert_eq!(handle.join().unwrap(), [0, 1, 2, 3, 4]);
}

#[test]
fn a_handle_is_a_future() {
    let (mut house, mut client) = open();
    let (job, handle) = Job::new(|unit| unit);
    let (lost, lost_handle) = Job::new(|unit| unit);
    let waiters = [handle, lost_handle].map(|handle| thread::spawn(move || block_on(handle)));
    client.send(job, 3).unwrap();
    drop(client);
    assert_eq!(house.run_jobs(), Ok(Ended::Closed));
    drop(lost);
    let [done, lost] = waiters.map(|waiter| waiter.join().unwrap());
    assert_eq!(done.unwrap(), 2);
    assert!(matches!(lost, Err(JobError::Lost)));
}

#[test]
fn a_panic_is_its_jobs_alone() {
    let (mut house, mut client) = open();
    let (panics, panic_handle) = Job::new(|unit| {
        if unit == 1 {
            std::panic::panic_any(7_u8);
        }
    });
    let (other, handle) = Job::new(|unit| unit);
    client.send(panics, 4).unwrap();
    client.send(other, 2).unwrap();
    drop(client);
    let mut units = 0;
    let ended = house.run_until_closed(|unit| {
        unit.run();
        units += 1;
    });
    assert_eq!((ended, units), (Ok(Ended::Closed), 4)); // the first ends with its panic
    assert_eq!(handle.join().unwrap(), 1);
    match panic_handle.join() {
        Err(JobError::Panicked(payload)) => {
            assert_eq!(payload.text(), None);
            assert_eq!(*payload.into_inner().downcast::<u8>().unwrap(), 7);
        }
        other => panic!("{other:?}"),
    }
}

#[test]
fn a_handle_that_is_dropped_ends_nothing() {
    let (mut house, mut client) = open();
    let done = Arc::new(());
    let holds = Arc::clone(&done);
    client
        .send(Job::new(move |_unit| Arc::strong_count(&holds)).0, 2)
        .unwrap();
    drop(client);
    let mut units = 0;
    house
        .run_until_closed(|unit| {
            unit.run();
            units += 1;
        })
        .unwrap();
    assert_eq!((units, Arc::strong_count(&done)), (2, 1));
}

#[test]
fn a_job_ends_early() {
    let (mut house, mut client) = open();
    let (job, handle) = Job::breakable(|unit| match unit {
        2 => ControlFlow::Break(()),
        _ => ControlFlow::Continue(unit),
    });
    client.send(job, 100).unwrap();
    let (job, whole) = Job::breakable(ControlFlow::<(), u32>::Continue);
    client.send(job, 2).unwrap();
    drop(client);
    assert_eq!(house.run_jobs(), Ok(Ended::Closed));
    assert!(matches!(handle.join(), Err(JobError::EndedEarly)));
    assert_eq!(whole.join().unwrap(), 1);
    assert_eq!(house.now(), 5); // three units and two
}

#[test]
fn a_job_that_breaks_in_its_last_unit_has_no_result() {
    let (mut house, mut client) = open();
    let (job, handle) = Job::breakable(|_unit| ControlFlow::<(), u32>::Break(()));
    client.send(job, 1).unwrap();
    drop(client);
    assert_eq!(house.run_jobs(), Ok(Ended::Closed));
    assert!(matches!(handle.join(), Err(JobError::EndedEarly)));
}

#[test]
fn a_panic_ends_its_job_at_once() {
    let (mut house, mut client) = open();
    let (job, handle) = Job::new(|_unit| -> () { panic!("the first unit") });
    client.send(job, 500).unwrap();
    drop(client);
    assert_eq!(house.run_jobs(), Ok(Ended::Closed));
    assert!(matches!(handle.join(), Err(JobError::Panicked(_))));
    assert_eq!(house.now(), 1);
}
