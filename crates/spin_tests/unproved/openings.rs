//! How a lock opens, and that the guard of a large value releases it. No contract says that a new lock's history is empty,
//! nor that a drop releases.
use crate::equal::equal;
use spin_fair::fair::FairMutex;
use spin_flag::spin::SpinMutex;
use spin_mutex::mutex::Mutex;
use spin_mutex::ticket::TicketMutex;
use spin_mutex::{mutex, tickets};
use spin_seats::seats::Seats;

#[test]
fn all_seats_are_free_by_default(rt: HostRuntime) {
    let seats: Seats<2> = Seats::default();
    equal(&rt, seats.count(), 0);
    let first = seats.try_enter(&rt);
    let second = seats.try_enter(&rt);
    equal(&rt, [first.is_some(), second.is_some()], [true; 2]);
}

#[test]
fn tickets_begin_at_zero(rt: HostRuntime) {
    let made: TicketMutex<u64> = TicketMutex::new(1);
    let from: TicketMutex<u64> = TicketMutex::from(1);
    let default: TicketMutex<u64> = TicketMutex::default();
    let numbers = [
        tickets::next(&made),
        tickets::next(&from),
        tickets::next(&default),
    ];
    equal(&rt, numbers, [0; 3]);
    let made: Mutex<u64> = Mutex::new(1);
    let from: Mutex<u64> = Mutex::from(1);
    let default: Mutex<u64> = Mutex::default();
    let next = mutex::tickets::next;
    equal(&rt, [next(&made), next(&from), next(&default)], [0; 3]);
}

#[test]
fn the_guard_of_a_large_value_releases(rt: HostRuntime) {
    let flag: SpinMutex<[u64; 1024]> = SpinMutex::new([0; 1024]);
    drop(flag.lock(&rt));
    let fair: FairMutex<[u64; 1024]> = FairMutex::new([0; 1024]);
    drop(fair.lock(&rt));
    let ticket: TicketMutex<[u64; 1024]> = TicketMutex::new([0; 1024]);
    drop(ticket.lock(&rt));
    let held = [flag.is_locked(), fair.is_locked(), ticket.is_locked()];
    equal(&rt, held, [false; 3]);
}
