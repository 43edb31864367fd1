//! What the tests share of which none may hang.

use std::sync::mpsc;
use std::thread;
use std::time::Duration;

/// Does this on a thread of its own, and fails if that takes more than a second, or than what `CBS_TEST_SECONDS` says: under
/// valgrind all takes longer.
pub fn within_a_second(work: impl FnOnce() + Send + 'static) {
    let (done, is_done) = mpsc::channel();
    let worker = thread::spawn(move || {
        work();
        done.send(()).expect("somebody waits for it");
    });
    let seconds = std::env::var("CBS_TEST_SECONDS").map_or(1, |word| word.parse().unwrap());
    let ended = is_done.recv_timeout(Duration::from_secs(seconds));
    assert_ne!(
        ended,
        Err(mpsc::RecvTimeoutError::Timeout),
        "it takes more than a second"
    );
    worker.join().expect("the test does not panic");
}
