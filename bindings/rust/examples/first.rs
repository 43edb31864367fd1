use cbs::realtime::Realtime;
use cbs::{Mode, Plan, Refused};
use std::error::Error;
use std::thread;
use std::time::Duration;

fn main() -> Result<(), Box<dyn Error>> {
    let mut plan = Plan::new();
    plan.admit(2, 5, Mode::Soft)?; // 2 ticks in every 5
    let (mut house, mut clients) = plan.open(8, 8)?;
    let mut client = clients.remove(0);

    // The sender's thread: it sends jobs. Each is a name, as the token, and so many units. The thread owns the client, so the
    // client is dropped, and the end sent, however the thread ends.
    let sender = thread::spawn(move || -> Result<(), Refused<&str>> {
        for (name, units) in [("wash", 2), ("dry", 1)] {
            client.blocking_send(name, units)?;
        }
        Ok(())
    });

    // A tick is a millisecond. This serves until the client is gone and its jobs are finished.
    let mut realtime = Realtime::new(&mut house, Duration::from_millis(1));
    let served = realtime.run(|unit| {
        // Here one unit is done.
        let name = *unit.token;
        println!("{name}: {}", if unit.is_last() { "done" } else { "a unit" });
    });
    let units = realtime.counts().units;
    drop(house); // a sender that is still at work gets `SendError::HouseGone`, and ends
    let sent = sender.join().expect("the sender does not panic");
    served?;
    sent?;
    println!("{units} units are done");
    Ok(())
}
