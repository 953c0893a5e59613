//! What has to succeed: the tries of the trait `Lock`, shared access beside other readers, and registrations in any
//! number.
use crate::equal::equal;
use spin_core::lock::{Lock, SharedLock};
use spin_fair::fair::FairMutex;
use spin_flag::spin::SpinMutex;
use spin_mutex::mutex::Mutex;
use spin_mutex::ticket::TicketMutex;
use spin_rwlock::rwlock::RwLock;
use std::sync::Wait;

fn found<L: Lock<u64>>(lock: &L) -> Option<u64> {
    lock.try_with(|value| *value).ok()
}

#[test]
fn a_try_with_is_granted_where_nobody_holds(rt: HostRuntime) {
    let seen = [
        found(&SpinMutex::<u64>::new(1)),
        found(&FairMutex::<u64>::new(1)),
        found(&RwLock::<u64>::new(1)),
        found(&TicketMutex::<u64>::new(1)),
        found(&Mutex::<u64>::new(1)),
    ];
    equal(&rt, seen, [Some(1); 5]);
}

fn found_shared<R: Wait>(rt: &R, lock: &RwLock<u64>) -> Option<u64> {
    lock.try_with_shared(rt, |value| *value).ok()
}

#[test]
fn a_shared_try_is_granted_beside_a_reader(rt: HostRuntime) {
    let lock: RwLock<u64> = RwLock::new(1);
    let reader = lock.read(&rt);
    let beside_reader = found_shared(&rt, &lock);
    drop(reader);
    let writer = lock.write(&rt);
    let beside_writer = found_shared(&rt, &lock);
    drop(writer);
    equal(&rt, [beside_reader, beside_writer], [Some(1), None]);
}

#[test]
fn a_hundred_read_at_once(rt: HostRuntime) {
    let lock: RwLock<u64> = RwLock::new(1);
    let mut guards = Vec::new(rt.alloc());
    for _ in 0..100u32 {
        let guard = lock.try_read(&rt).expect(&rt, "nobody writes");
        equal(&rt, guards.push(guard).is_ok(), true);
    }
    equal(&rt, lock.reader_count(), 100);
}

#[test]
fn a_hundred_starve_at_once(rt: HostRuntime) {
    let lock: FairMutex<u64> = FairMutex::new(1);
    let mut places = Vec::new(rt.alloc());
    for _ in 0..100u32 {
        let place = lock.starve(&rt).expect(&rt, "below the cap");
        equal(&rt, places.push(place).is_ok(), true);
    }
    equal(&rt, lock.try_lock().is_none(), true);
    drop(places);
    equal(&rt, lock.try_lock().is_some(), true);
}
