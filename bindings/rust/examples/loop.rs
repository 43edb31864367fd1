use cbs::realtime::{Clock, Monotonic, Next, Rounding};
use cbs::{Mode, Plan, RunError};
use std::error::Error;
use std::time::Duration;

fn main() -> Result<(), Box<dyn Error>> {
    let mut plan = Plan::new();
    plan.admit(2, 5, Mode::Throttled)?; // 2 ticks in every 5
    let (mut house, mut clients) = plan.open(8, 8)?;
    clients[0].send("wash", 3)?;

    let mut clock = Monotonic::default();
    let mut now = clock.now();
    let mut pacer = house.pace(Duration::from_millis(1), Rounding::Up, now);
    loop {
        match house.next(&mut pacer, now) {
            Next::Do(unit) => {
                println!("a unit of {}", *unit.token); // here one unit is done
                if unit.is_last() {
                    clients.clear(); // nobody sends any more
                }
            }
            Next::SleepUntil(time) => clock.sleep_until(time),
            Next::Listen => {} // the house listens for its bell from now on
            Next::WaitUntil(time) => clock.wait(house.bell(), time),
            Next::Over => break,
            Next::ClockEnd => return Err(RunError::ClockEnd.into()),
            Next::OutOfMemory => return Err(RunError::OutOfMemory.into()),
        }
        if let (1, Some(tick)) = (pacer.taken(), house.promised(0)?) {
            println!("promised by tick {tick}");
        }
        now = clock.now(); // before that the program looks at what it likes
    }
    println!("{} units are done", pacer.counts().units);
    Ok(())
}
