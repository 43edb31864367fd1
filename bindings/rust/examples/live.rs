use cbs::realtime::Realtime;
use cbs::{Mode, Plan};
use std::error::Error;
use std::time::Duration;

fn main() -> Result<(), Box<dyn Error>> {
    let mut plan = Plan::new();
    plan.admit(2, 5, Mode::Soft)?; // 2 ticks in every 5
    plan.admit(1, 10, Mode::Throttled)?;
    let (mut house, mut clients) = plan.open(8, 8)?;
    clients[0].send("steer", 4)?;
    clients[0].send("steer", 4)?;
    clients[1].send("encode", 3)?;
    drop(clients); // they send no more

    let live = house.live(&["control", "video"]); // for any thread, while the house runs
    Realtime::new(&mut house, Duration::from_millis(1)).run(|_unit| {
        // Here the program does a unit of the job.
    })?;
    println!("{live}");
    let control = live.read(0)?;
    println!("{} of {} units were late", control.late(), control.units);
    Ok(())
}
