//! What no contract says of a monitor: the drop of each guard ends the waits in it.
use crate::equal::equal;
use spin::Monitor;
use spin::lock::Patient;
use spin::mutex::{FairMutex, Mutex, SpinMutex, TicketMutex};
use spin::relax::Yield;
use spin::rwlock::RwLock;
use std::sync::Wait;
use std::thread;
use std::thread::{Threads, map_indices};
use std::time::{Clock, Duration};

fn brief() -> Duration {
    Duration::from_millis(5)
}

fn long() -> Duration {
    Duration::from_secs(600)
}

// One thread gives, and one takes when there is something. Then each call that gives up does so.
macro_rules! gives_and_takes {
    ($rt:expr, $lock:expr) => {{
        let (rt, free) = ($rt, Monitor::new($lock));
        let give = || {
            for _ in 0..1000u64 {
                let mut guard = free.lock(rt);
                *guard = guard.saturating_add(1);
            }
        };
        let take = || {
            for _ in 0..1000u64 {
                *free.lock_when(rt, |free: &u64| *free > 0) -= 1;
            }
        };
        thread::join(rt, give, take);
        let unmet = free.lock_when_for(rt, brief(), |free: &u64| *free > 0).is_none();
        let met = free.lock_when_for(rt, long(), |free: &u64| *free == 0).is_some();
        let guard = free.lock(rt);
        let held = free.try_lock().is_none() && free.try_lock_for(rt, brief()).is_none();
        drop(guard);
        let left = free.try_lock().map(|guard| *guard);
        equal(rt, (unmet, met, held, left), (true, true, true, Some(0)));
    }};
}

#[test]
fn each_lock_wakes_who_waits(rt: HostRuntime) {
    gives_and_takes!(&rt, SpinMutex::<u64, Yield>::new(0));
    gives_and_takes!(&rt, TicketMutex::<u64, Yield>::new(0));
    gives_and_takes!(&rt, Mutex::<u64, Yield>::new(0));
    gives_and_takes!(&rt, FairMutex::<u64, Yield>::new(0));
    gives_and_takes!(&rt, RwLock::<u64, Yield>::new(0));
}

// The waits that are asleep end, each when its number is there.
fn follow<R: Threads + Wait + AllocGlobal + Sync>(rt: &R) -> Option<u64> {
    let turn: Monitor<SpinMutex<u64>> = Monitor::new(SpinMutex::new(0));
    let take = |worker: usize| {
        let mut turn = turn.lock_when(rt, |turn: &u64| *turn == worker as u64);
        *turn += 1;
    };
    map_indices(rt, rt.alloc(), 33, &take).ok()?;
    Some(turn.into_inner().into_inner())
}

#[test]
fn thirty_three_threads_take_turns(rt: HostRuntime) {
    equal(&rt, follow(&rt), Some(33));
}

// A guard through which nothing was written wakes too: the waiting thread looks again, and finds what another lock says.
#[test]
fn a_guard_without_a_write_wakes(rt: HostRuntime) {
    let (open, gate): (SpinMutex<bool>, Monitor<SpinMutex<()>>) = (
        SpinMutex::new(false),
        Monitor::new(SpinMutex::new(())),
    );
    let wait = || drop(gate.lock_when(&rt, |_: &()| open.try_lock().is_some_and(|open| *open)));
    let pass = || {
        *open.lock(&rt) = true;
        drop(gate.lock(&rt));
    };
    thread::join(&rt, wait, pass);
    assert!(rt; *open.lock(&rt));
}
