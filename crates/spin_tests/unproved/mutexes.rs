//! Which calls succeed, and what releases a lock. The mutexes have the same calls, under the same names.
use crate::equal::equal;
use spin_core::relax::Loop;
use spin_fair::fair::{FairMutex, FairMutexGuard};
use spin_flag::spin::{SpinMutex, SpinMutexGuard};
use spin_mutex::mutex::{Mutex, MutexGuard};
use spin_mutex::ticket::{TicketMutex, TicketMutexGuard};
use std::process::Abort;
use std::sync::Wait;

type Taken = ([bool; 5], [u64; 2]);

// Returns what a test sees of a free lock: whether the lock is locked before a try; whether a second try fails; whether
// the lock is locked then, and after the release; whether a last try succeeds; and the values that the first try and
// the next call find.
macro_rules! taken_once {
    ($rt:expr, $Lock:ident) => {{
        let lock: $Lock<u64> = $Lock::new(42);
        let before = lock.is_locked();
        let guard = lock.try_lock().expect($rt, "free");
        let refused = lock.try_lock().is_none();
        let held = lock.is_locked();
        let value = *guard;
        drop(guard);
        let after = lock.is_locked();
        let next = *lock.lock($rt);
        let granted = lock.try_lock().is_some();
        ([before, refused, held, after, granted], [value, next])
    }};
}

fn spin_mutex<R: Abort + Wait>(rt: &R) -> Taken {
    taken_once!(rt, SpinMutex)
}

fn ticket_mutex<R: Abort + Wait>(rt: &R) -> Taken {
    taken_once!(rt, TicketMutex)
}

fn fair_mutex<R: Abort + Wait>(rt: &R) -> Taken {
    taken_once!(rt, FairMutex)
}

fn mutex<R: Abort + Wait>(rt: &R) -> Taken {
    taken_once!(rt, Mutex)
}

#[test]
fn a_lock_is_taken_once(rt: HostRuntime) {
    let seen = [
        spin_mutex(&rt),
        ticket_mutex(&rt),
        fair_mutex(&rt),
        mutex(&rt),
    ];
    equal(&rt, seen, [([false, true, true, false, true], [42; 2]); 4]);
}

macro_rules! opened {
    ($Lock:ident, $lock:expr) => {{
        let lock: $Lock<u64> = $lock;
        (lock.is_locked(), lock.into_inner())
    }};
}

#[test]
fn a_lock_is_made_of_a_value(rt: HostRuntime) {
    let of_none = [
        opened!(SpinMutex, SpinMutex::default()),
        opened!(TicketMutex, TicketMutex::default()),
        opened!(FairMutex, FairMutex::default()),
        opened!(Mutex, Mutex::default()),
    ];
    equal(&rt, of_none, [(false, 0); 4]);
    let of_five = [
        opened!(SpinMutex, SpinMutex::from(5)),
        opened!(TicketMutex, TicketMutex::from(5)),
        opened!(FairMutex, FairMutex::from(5)),
        opened!(Mutex, Mutex::from(5)),
    ];
    equal(&rt, of_five, [(false, 5); 4]);
}

// The owner of a lock writes, and then a try does. Returns whether the lock is locked between these writes, the value
// that the try finds, and twice the value that the owner finds at the end.
macro_rules! owned {
    ($rt:expr, $Lock:ident) => {{
        let mut lock: $Lock<u64, Loop> = $Lock::new(1);
        *lock.get_mut() = 5;
        let before = lock.is_locked();
        let mut guard = lock.try_lock().expect($rt, "free");
        let value = *guard;
        *guard = 6;
        drop(guard);
        let last = *lock.get_mut();
        (before, [value, last, lock.into_inner()])
    }};
}

#[test]
fn the_owner_has_the_last_value_and_takes_no_lock(rt: HostRuntime) {
    let seen = [
        owned!(&rt, SpinMutex),
        owned!(&rt, TicketMutex),
        owned!(&rt, FairMutex),
        owned!(&rt, Mutex),
    ];
    equal(&rt, seen, [(false, [5, 6, 6]); 4]);
}

// Returns whether a try fails during a hold, and the value found after a forced release.
macro_rules! opened_by_force {
    ($rt:expr, $Lock:ident, $Guard:ident) => {{
        let lock: $Lock<u64> = $Lock::new(1);
        let mut guard = lock.lock($rt);
        *guard = 3;
        let held = $Guard::hold(guard);
        let refused = lock.try_lock().is_none();
        $Lock::force_unlock(held);
        (refused, *lock.try_lock().expect($rt, "open"))
    }};
}

#[test]
fn a_held_lock_opens_by_force(rt: HostRuntime) {
    let seen = [
        opened_by_force!(&rt, SpinMutex, SpinMutexGuard),
        opened_by_force!(&rt, TicketMutex, TicketMutexGuard),
        opened_by_force!(&rt, FairMutex, FairMutexGuard),
        opened_by_force!(&rt, Mutex, MutexGuard),
    ];
    equal(&rt, seen, [(true, 3); 4]);
}

// Returns whether a lock is locked after a hold was dropped, whether a try then fails, and the last value.
macro_rules! left_by_a_hold {
    ($rt:expr, $Lock:ident, $Guard:ident) => {{
        let lock: $Lock<u64> = $Lock::new(1);
        let mut guard = lock.lock($rt);
        *guard = 3;
        drop($Guard::hold(guard));
        let seen = [lock.is_locked(), lock.try_lock().is_none()];
        (seen, lock.into_inner())
    }};
}

#[test]
fn a_dropped_hold_frees_nothing(rt: HostRuntime) {
    let seen = [
        left_by_a_hold!(&rt, SpinMutex, SpinMutexGuard),
        left_by_a_hold!(&rt, TicketMutex, TicketMutexGuard),
        left_by_a_hold!(&rt, FairMutex, FairMutexGuard),
        left_by_a_hold!(&rt, Mutex, MutexGuard),
    ];
    equal(&rt, seen, [([true; 2], 3); 4]);
}

// Returns whether a try fails while a leaked value is written, and the last value.
macro_rules! left_by_a_leak {
    ($rt:expr, $Lock:ident, $Guard:ident) => {{
        let lock: $Lock<u64> = $Lock::new(1);
        let value = $Guard::leak(lock.lock($rt));
        *value = 7;
        let refused = lock.try_lock().is_none();
        *value = 9;
        (refused, lock.into_inner())
    }};
}

#[test]
fn a_leaked_value_stays_writable(rt: HostRuntime) {
    let seen = [
        left_by_a_leak!(&rt, SpinMutex, SpinMutexGuard),
        left_by_a_leak!(&rt, TicketMutex, TicketMutexGuard),
        left_by_a_leak!(&rt, FairMutex, FairMutexGuard),
        left_by_a_leak!(&rt, Mutex, MutexGuard),
    ];
    equal(&rt, seen, [(true, 9); 4]);
}

const WEAK_ATTEMPTS: u32 = 10_000_000;

#[test]
fn a_weak_try_refuses_a_held_lock_and_is_granted_in_the_end(rt: HostRuntime) {
    let lock: SpinMutex<u64> = SpinMutex::new(1);
    let guard = lock.lock(&rt);
    let refused = lock.try_lock_weak().is_none();
    drop(guard);
    let mut granted = false;
    for _ in 0..WEAK_ATTEMPTS {
        if lock.try_lock_weak().is_some() {
            granted = true;
            break;
        }
    }
    equal(&rt, [refused, granted], [true; 2]);
}
