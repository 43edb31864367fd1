//! Every call of the crate, with everything that it can return but out of memory (`bindings/c/tests/memory.c` has that).

use cbs::{
    Client, House, HouseError, Mode, OpenError, Plan, PlanError, Poll, Ran, RunError, SendError,
};
use std::error::Error;

fn plan(servers: &[(u64, u64, Mode)]) -> Plan {
    let mut plan = Plan::new();
    for (number, &(budget, period, mode)) in servers.iter().enumerate() {
        assert_eq!(plan.admit(budget, period, mode), Ok(number));
    }
    plan
}

fn open(servers: &[(u64, u64, Mode)]) -> (House, Vec<Client>) {
    plan(servers).open(4, 2).unwrap()
}

/// What a run told: the server, the number, the token and whether it is the last unit.
type Told = Option<(usize, u64, u64, bool)>;

fn told(ran: Ran<'_>) -> Told {
    match ran {
        Ran::Unit(unit) => Some((unit.server, unit.seq, *unit.token, unit.is_last())),
        Ran::Idle => None,
        Ran::ClockEnd => panic!("the clock is at its end"),
    }
}

fn unit(server: usize, seq: u64, token: u64, last: bool) -> Told {
    Some((server, seq, token, last))
}

/// Sends a job, which is refused by this error, with its token.
fn refuses(client: &mut Client, token: u64, units: u32, error: SendError) {
    let refused = client.send(token, units).unwrap_err();
    assert_eq!((refused.error, refused.token), (error, token));
}

#[test]
fn a_plan_admits_exactly_what_fits() {
    let mut plan = plan(&[(2, 5, Mode::Soft)]);
    assert_eq!(plan.admit(0, 5, Mode::Soft), Err(PlanError::ZeroBudget));
    assert_eq!(
        plan.admit(1, 1_000_000_001, Mode::Soft),
        Err(PlanError::PeriodTooLong)
    );
    assert_eq!(
        plan.admit(6, 5, Mode::Soft),
        Err(PlanError::BudgetOverPeriod)
    );
    assert_eq!(plan.admit(4, 5, Mode::Soft), Err(PlanError::OverBound));
    assert_eq!(plan.len(), 1);
    assert_eq!(plan.greatest_budget(10), 6);
    assert_eq!(plan.admit(6, 10, Mode::Throttled), Ok(1));
    assert_eq!(plan.greatest_budget(10), 0);
    assert!(Plan::new().is_empty());
}

#[test]
fn a_plan_refuses_too_many_and_too_fine() {
    let mut many = plan(&[(1, 100, Mode::Soft); 64]);
    assert_eq!(
        many.admit(1, 100, Mode::Soft),
        Err(PlanError::TooManyServers)
    );
    // The first two have a common multiple just below 10^18: 999999937 is a prime.
    let mut fine = plan(&[(1, 999_999_937, Mode::Soft), (1, 1_000_000_000, Mode::Soft)]);
    assert_eq!(
        fine.admit(1, 999_999_929, Mode::Soft),
        Err(PlanError::PeriodsTooFine)
    );
}

#[test]
fn a_house_refuses_its_sizes() {
    let plan = plan(&[(2, 5, Mode::Soft)]);
    assert_eq!(plan.open::<u64>(0, 4).unwrap_err(), OpenError::BadBacklog);
    assert_eq!(
        plan.open::<u64>(4097, 4).unwrap_err(),
        OpenError::BadBacklog
    );
    assert_eq!(plan.open::<u64>(4, 0).unwrap_err(), OpenError::BadRing);
    assert_eq!(plan.open::<u64>(4, 1025).unwrap_err(), OpenError::BadRing);
    assert_eq!(plan.open::<u64>(4096, 1024).unwrap().1.len(), 1);
    assert_eq!(Plan::new().open::<u64>(1, 1).unwrap().0.servers(), 0);
}

#[test]
fn a_soft_server_goes_on_at_a_later_deadline() {
    let (mut house, mut clients) = open(&[(2, 5, Mode::Soft)]);
    assert_eq!(told(house.run()), None);
    assert_eq!(clients[0].send(7, 3).unwrap(), 0);
    assert_eq!(clients[0].waiting(), 1);
    assert_eq!(house.poll(0), Ok(Poll::Took));
    assert_eq!(clients[0].waiting(), 0);
    assert_eq!(house.promised(0), Ok(Some(10)));
    assert_eq!(house.idle_span(), None);
    assert_eq!(told(house.run()), unit(0, 0, 7, false));
    assert_eq!(told(house.run()), unit(0, 0, 7, false));
    let view = house.view(0).unwrap();
    assert_eq!(
        (view.budget, view.deadline, view.accepted, view.finished),
        (2, 10, 1, 0)
    );
    assert_eq!(told(house.run()), unit(0, 0, 7, true));
    assert_eq!(house.promised(0), Ok(None));
    assert_eq!(house.now(), 3);
    assert!(!house.view(0).unwrap().throttled);
}

#[test]
fn a_throttled_server_waits_for_its_deadline() {
    let (mut house, mut clients) = open(&[(1, 10, Mode::Throttled)]);
    assert_eq!(clients[0].send(7, 2).unwrap(), 0);
    let turn = house.turn();
    assert_eq!(
        (turn.took, turn.advanced, turn.out_of_memory, turn.over),
        (1, 0, false, false)
    );
    assert_eq!(told(turn.ran), unit(0, 0, 7, false));
    assert!(house.view(0).unwrap().throttled);
    assert_eq!(house.idle_span(), Some(9));
    assert_eq!(house.advance(9), Ok(()));
    assert_eq!(told(house.run()), unit(0, 0, 7, true));
    assert_eq!(house.now(), 11);
}

// A unit that took four ticks. The throttled server has used its budget up at tick 1, and a period pays for each tick.
#[test]
fn a_throttled_server_pays_for_a_long_unit() {
    let (mut house, mut clients) = open(&[(1, 10, Mode::Throttled), (1, 10, Mode::Soft)]);
    clients[0].send(7, 2).unwrap();
    assert_eq!(house.charge(0, 1), Err(HouseError::NotRunning));
    assert_eq!(told(house.turn().ran), unit(0, 0, 7, false));
    assert_eq!(house.charge(2, 1), Err(HouseError::NoSuchServer));
    assert_eq!(house.charge(1, 1), Err(HouseError::NotRunning));
    assert_eq!(house.charge(0, u64::MAX), Err(HouseError::ClockEnd));
    assert_eq!(house.charge(0, 0), Ok(()));
    assert_eq!(house.now(), 1);
    assert_eq!(house.charge(0, 3), Ok(()));
    assert_eq!(house.charge(0, 1), Ok(()));
    assert_eq!(house.now(), 5);
    let view = house.view(0).unwrap();
    assert_eq!((view.budget, view.deadline, view.throttled), (0, 50, true));
    let charges = house.charges(0).unwrap();
    assert_eq!((charges.total, charges.most), (4, 4));
    let charges = house.charges(1).unwrap();
    assert_eq!((charges.total, charges.most), (0, 0));
    assert_eq!(house.charges(2), Err(HouseError::NoSuchServer));
    assert_eq!(house.advance(1), Ok(()));
    assert_eq!(house.charge(0, 1), Err(HouseError::NotRunning));
    assert_eq!(house.idle_span(), Some(44));
}

// The soft server has a new budget for tick 20 at tick 1, and three more when it was charged.
#[test]
fn a_soft_server_pays_by_later_deadlines() {
    let (mut house, mut clients) = open(&[(1, 10, Mode::Soft)]);
    clients[0].send(7, 2).unwrap();
    assert_eq!(told(house.turn().ran), unit(0, 0, 7, false));
    assert_eq!(house.charge(0, 3), Ok(()));
    let view = house.view(0).unwrap();
    assert_eq!((view.budget, view.deadline, view.throttled), (1, 50, false));
    assert_eq!(told(house.turn().ran), unit(0, 0, 7, true));
    assert_eq!(house.now(), 5);
}

#[test]
fn a_client_ends_once_behind_its_jobs() {
    let (mut house, mut clients) = open(&[(2, 5, Mode::Soft)]);
    let client = &mut clients[0];
    refuses(client, 1, 0, SendError::EmptyJob);
    refuses(client, 1, 1_000_001, SendError::TooLong);
    assert_eq!(client.send(1, 1).unwrap(), 0);
    assert_eq!(client.send(2, 1).unwrap(), 1);
    refuses(client, 3, 1, SendError::RingFull);
    assert_eq!(client.end(), Err(SendError::RingFull));
    assert_eq!(house.poll(0), Ok(Poll::Took));
    assert_eq!(client.end(), Ok(()));
    assert_eq!(client.end(), Err(SendError::Ended));
    refuses(client, 3, 1, SendError::Ended);
    assert_eq!(house.poll(0), Ok(Poll::Took));
    assert_eq!(house.poll(0), Ok(Poll::Closed));
    assert_eq!(house.poll(0), Ok(Poll::Nothing));
    assert_eq!(house.poll(1), Err(HouseError::NoSuchServer));
    assert_eq!(house.promised(1), Err(HouseError::NoSuchServer));
    assert!(house.view(0).unwrap().closed);
    assert_eq!(house.view(1), Err(HouseError::NoSuchServer));
}

#[test]
fn a_full_backlog_leaves_messages_in_the_ring() {
    let (mut house, mut clients) = plan(&[(2, 5, Mode::Soft)]).open(1, 2).unwrap();
    clients[0].send(1, 1).unwrap();
    clients[0].send(2, 1).unwrap();
    assert_eq!(house.poll(0), Ok(Poll::Took));
    assert_eq!(house.poll(0), Ok(Poll::Full));
    assert_eq!(clients[0].waiting(), 1);
    assert_eq!(told(house.run()), unit(0, 0, 1, true));
    assert_eq!(house.poll(0), Ok(Poll::Took));
    assert_eq!(told(house.run()), unit(0, 1, 2, true));
}

#[test]
fn the_clock_ends() {
    let (mut house, mut clients) = open(&[(2, 5, Mode::Soft)]);
    assert_eq!(house.advance(1_000_000_000_001), Err(HouseError::ClockEnd));
    assert_eq!(house.advance(1_000_000_000_000), Ok(()));
    assert_eq!(house.advance(1), Err(HouseError::ClockEnd));
    clients[0].send(7, 1).unwrap();
    assert!(matches!(house.turn().ran, Ran::ClockEnd));
    assert_eq!(
        house.run_until_closed(|_unit| unreachable!()),
        Err(RunError::ClockEnd)
    );
}

#[test]
fn errors_have_the_texts_of_the_library() {
    let error: Box<dyn Error> = Box::new(SendError::RingFull);
    assert_eq!(error.to_string(), "the ring is full");
    assert_eq!(
        OpenError::BadRing.to_string(),
        "the ring is not within 1 to 1024 messages"
    );
    assert_eq!(PlanError::OverBound.status(), 0x203);
}

#[test]
fn a_turn_tells_that_all_is_over() {
    let (mut house, mut clients) = open(&[(2, 5, Mode::Soft), (1, 10, Mode::Throttled)]);
    assert!(!house.turn().over);
    assert_eq!((clients[0].server(), clients[1].server()), (0, 1));
    clients[0].send(7, 3).unwrap();
    drop(clients.pop());
    assert!(!house.turn().over); // it closes server 1
    drop(clients);
    assert!(!house.turn().over); // it closes server 0, and a unit is left
    let turn = house.turn();
    assert!(turn.over);
    assert_eq!(told(turn.ran), unit(0, 0, 7, true));
    assert!(house.turn().over);
}

#[test]
fn servers_are_numbered_in_16_bits() {
    let (mut house, _clients) = open(&[(2, 5, Mode::Soft)]);
    for server in [1, 65_535, 65_536, usize::MAX] {
        assert_eq!(house.poll(server), Err(HouseError::NoSuchServer));
        assert_eq!(house.charge(server, 1), Err(HouseError::NoSuchServer));
        assert_eq!(house.charges(server), Err(HouseError::NoSuchServer));
        assert_eq!(house.view(server), Err(HouseError::NoSuchServer));
        assert_eq!(house.promised(server), Err(HouseError::NoSuchServer));
    }
}

#[test]
fn everything_has_a_debug_text() {
    let (mut house, mut clients) = open(&[(2, 5, Mode::Soft)]);
    clients[0].send(7, 2).unwrap();
    for text in [
        format!("{house:?}"),
        format!("{:?}", house.turn()),
        format!("{:?}", house.view(0)),
        format!("{clients:?}"),
        format!("{:?}", house.stopper()),
        format!("{:?}", clients[0].send(7, 0)),
        format!("{:?}", cbs::Job::new(|unit| unit)),
    ] {
        assert!(!text.is_empty());
    }
}

#[test]
fn both_sides_may_go_to_other_threads() {
    fn is_send<T: Send>() {}
    is_send::<House>();
    is_send::<Client>();
    let (mut house, mut clients) = open(&[(2, 5, Mode::Soft)]);
    let mut client = clients.remove(0);
    let sender = std::thread::spawn(move || {
        for token in 0..1000 {
            while let Err(refused) = client.send(token, 1) {
                assert_eq!(refused.error, SendError::RingFull);
                std::thread::yield_now();
            }
        }
    });
    let server = std::thread::spawn(move || {
        let mut next = 0;
        while next < 1000 {
            match told(house.turn().ran) {
                None => std::thread::yield_now(),
                ran => {
                    assert_eq!(ran, unit(0, next, next, true));
                    next += 1;
                }
            }
        }
    });
    sender.join().unwrap();
    server.join().unwrap();
}
