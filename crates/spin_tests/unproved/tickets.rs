//! What happens once all tickets are used up, and which calls take a ticket. Also that a `Mutex` uses tickets.
use crate::equal::equal;
use spin_mutex::mutex::Mutex;
use spin_mutex::mutex::tickets::starting_at as mutex_starting_at;
use spin_mutex::ticket::{TicketMutex, TicketMutexGuard};
use spin_mutex::tickets::{next, starting_at};

#[test]
fn used_up_tickets_are_refused(rt: HostRuntime) {
    let lock: TicketMutex<u64> = starting_at(42, u64::MAX - 1);
    let guard = lock.try_lock().expect(&rt, "one ticket is left");
    let value = *guard;
    drop(guard);
    let seen = [lock.try_lock().is_none(), lock.is_locked()];
    equal(
        &rt,
        (seen, [value, lock.into_inner()]),
        ([true, false], [42; 2]),
    );
}

#[test]
fn a_mutex_of_used_up_tickets_refuses(rt: HostRuntime) {
    let mut mutex: Mutex<u64> = mutex_starting_at(42, u64::MAX - 1);
    *mutex.get_mut() = 42;
    let before = mutex.is_locked();
    let guard = mutex.try_lock().expect(&rt, "one ticket is left");
    let value = *guard;
    drop(guard);
    let seen = [before, mutex.try_lock().is_none(), mutex.is_locked()];
    let text = format!(in rt.alloc(); "{mutex:?}").expect(&rt, "memory");
    equal(&rt, text.as_str(), "Mutex { <locked> }");
    let values = [value, mutex.into_inner()];
    equal(&rt, (seen, values), ([false, true, false], [42; 2]));
}

#[test]
fn the_last_ticket_locks(rt: HostRuntime) {
    let lock: TicketMutex<u64> = starting_at(42, u64::MAX - 1);
    let guard = lock.lock(&rt);
    let (number, held) = (next(&lock), lock.is_locked());
    TicketMutex::force_unlock(TicketMutexGuard::hold(guard));
    let seen = [held, lock.is_locked(), lock.try_lock().is_none()];
    equal(&rt, seen, [true, false, true]);
    equal(&rt, [number, next(&lock)], [u64::MAX; 2]);
}

#[test]
fn looks_and_the_owner_take_no_ticket(rt: HostRuntime) {
    let mut lock: TicketMutex<u64> = starting_at(42, u64::MAX - 1);
    let before = lock.is_locked();
    *lock.get_mut() = 43;
    let (written, number) = (lock.is_locked(), next(&lock));
    let guard = lock.try_lock().expect(&rt, "one ticket is left");
    let locked = [before, written, lock.is_locked()];
    equal(&rt, locked, [false, false, true]);
    equal(&rt, [number, *guard], [u64::MAX - 1, 43]);
}
