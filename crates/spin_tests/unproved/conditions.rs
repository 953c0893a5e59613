//! What no contract says of the waits: a wait goes on until its condition holds, and a call that gives up does so in
//! time. Most tests are those that `std` and `parking_lot` have for a `Condvar` and for tries with a time.
use crate::equal::equal;
use spin::lock::{Acquire, Patient, PatientShared};
use spin::mutex::{FairMutex, Mutex, SpinMutex, TicketMutex};
use spin::relax::Yield;
use spin::rwlock::RwLock;
use spin_examples::conditions;
use std::cell::Cell;
use std::collections::VecDeque;
use std::process::Abort;
use std::sync::Wait;
use std::thread;
use std::thread::{Threads, map_indices};
use std::time::{Clock, Duration, Instant};

fn brief() -> Duration {
    Duration::from_millis(5)
}

fn long() -> Duration {
    Duration::from_secs(600)
}

// One thread gives, and one takes when there is something. Then each call that gives up does so, or is granted.
macro_rules! gives_and_takes {
    ($rt:expr, $free:expr) => {{
        let (rt, free) = ($rt, $free);
        let give = || {
            for _ in 0..1000u64 {
                let mut guard = free.acquire(rt);
                *guard = guard.saturating_add(1);
            }
        };
        let take = || {
            for _ in 0..1000u64 {
                *free.lock_when(rt, |free| *free > 0) -= 1;
            }
        };
        thread::join(rt, give, take);
        let guard = free.acquire(rt);
        let left = *guard;
        let held = [
            free.try_lock_for(rt, brief()).is_some(),
            free.try_lock_until(rt, now(rt)).is_some(),
            free.try_lock_times(5).is_some(),
            free.lock_when_for(rt, brief(), |_| true).is_some(),
        ];
        drop(guard);
        // Each guard is gone before the next call.
        let for_some_time = free.try_lock_for(rt, Duration::ZERO).is_some();
        let until_now = free.try_lock_until(rt, now(rt)).is_some();
        let once = free.try_lock_times(1).is_some();
        let met = free
            .lock_when_for(rt, Duration::ZERO, |free| *free == 0)
            .is_some();
        let open = [for_some_time, until_now, once, met];
        let unmet = [
            free.lock_when_for(rt, brief(), |free| *free > 0).is_some(),
            free.try_lock_times(0).is_some(),
        ];
        equal(rt, (left, unmet), (0, [false; 2]));
        equal(rt, (held, open), ([false; 4], [true; 4]));
    }};
}

fn now(rt: &(impl Abort + Clock)) -> Instant {
    Instant::now(rt).expect(rt, "a clock")
}

#[test]
fn each_lock_waits_and_gives_up(rt: HostRuntime) {
    gives_and_takes!(&rt, &SpinMutex::<u64, Yield>::new(0));
    gives_and_takes!(&rt, &TicketMutex::<u64, Yield>::new(0));
    gives_and_takes!(&rt, &Mutex::<u64, Yield>::new(0));
    gives_and_takes!(&rt, &FairMutex::<u64, Yield>::new(0));
    gives_and_takes!(&rt, &RwLock::<u64, Yield>::new(0));
}

#[test]
fn readers_wait_and_give_up(rt: HostRuntime) {
    let version: RwLock<u64, Yield> = RwLock::new(1);
    let wait = || *version.read_when(&rt, |version| *version >= 2);
    let two = || thread::join(&rt, &wait, &wait);
    let (seen, ()) = thread::join(&rt, two, || *version.write(&rt) = 3);
    equal(&rt, seen, (3, 3));
    let reader = version.read(&rt);
    let beside_a_reader = [
        version.try_read_for(&rt, brief()).is_some(),
        version.try_read_until(&rt, now(&rt)).is_some(),
        version.try_lock_for(&rt, brief()).is_some(),
    ];
    drop(reader);
    let writer = version.write(&rt);
    let beside_a_writer = [
        version.try_read_for(&rt, brief()).is_some(),
        version.try_read_until(&rt, now(&rt)).is_some(),
    ];
    drop(writer);
    equal(&rt, beside_a_reader, [true, true, false]);
    equal(&rt, beside_a_writer, [false; 2]);
}

#[test]
fn a_failed_try_takes_its_time(rt: HostRuntime) {
    let lock: SpinMutex<(), Yield> = SpinMutex::new(());
    let guard = lock.lock(&rt);
    let start = now(&rt);
    let end = start.checked_add(brief()).expect(&rt, "in range");
    let first = lock.try_lock_until(&rt, end).is_some();
    let second = lock.try_lock_for(&rt, brief()).is_some();
    let took = start.elapsed(&rt).expect(&rt, "a clock");
    // The moment has passed.
    let third = lock.try_lock_until(&rt, start).is_some();
    drop(guard);
    equal(&rt, [first, second, third], [false; 3]);
    equal(&rt, took >= brief().saturating_mul(2), true);
}

#[test]
fn a_try_is_granted_when_the_holder_leaves(rt: HostRuntime) {
    let lock: SpinMutex<u64, Yield> = SpinMutex::new(1);
    let guard = lock.lock(&rt);
    let leave = move || {
        thread::sleep(&rt, brief());
        drop(guard);
    };
    let (found, ()) = thread::join(&rt, || lock.try_lock_for(&rt, long()).is_some(), leave);
    let guard = lock.lock(&rt);
    let leave = move || drop(guard);
    let (after, ()) = thread::join(
        &rt,
        || lock.try_lock_for(&rt, Duration::MAX).is_some(),
        leave,
    );
    equal(&rt, [found, after], [true; 2]);
}

// From the tests of `Condvar`.

#[test]
fn notify_one(rt: HostRuntime) {
    let started: SpinMutex<bool, Yield> = SpinMutex::new(false);
    let wait = || *started.lock_when(&rt, |started| *started);
    let (found, ()) = thread::join(&rt, wait, || *started.lock(&rt) = true);
    equal(&rt, found, true);
}

#[test]
fn notify_all(rt: HostRuntime) {
    const MANY: u64 = 10;
    // How many have come, and whether they may go.
    let state: SpinMutex<(u64, bool), Yield> = SpinMutex::new((0, false));
    let party = |party: usize| {
        if party == 0 {
            let mut all = state.lock_when(&rt, |state| state.0 == MANY);
            all.1 = true;
            return;
        }
        let mut came = state.lock(&rt);
        came.0 = came.0.wrapping_add(1);
        drop(came);
        let mut may_go = state.lock_when(&rt, |state| state.1);
        may_go.0 = may_go.0.wrapping_sub(1);
    };
    map_indices(&rt, rt.alloc(), 11, &party).expect(&rt, "memory");
    equal(&rt, state.into_inner(), (0, true));
}

#[test]
fn wait_timeout_while(rt: HostRuntime) {
    let lock: SpinMutex<u64, Yield> = SpinMutex::new(0);
    equal(
        &rt,
        lock.lock_when_for(&rt, brief(), |_| false).is_some(),
        false,
    );
    let met = lock.lock_when_for(&rt, Duration::ZERO, |_| true).is_some();
    let wake = || {
        thread::sleep(&rt, brief());
        *lock.lock(&rt) = 1;
    };
    let wait = || lock
        .lock_when_for(&rt, long(), |value| *value == 1)
        .is_some();
    let (woken, ()) = thread::join(&rt, wait, wake);
    equal(&rt, [met, woken], [true; 2]);
}

#[test]
fn a_condition_that_holds_is_tested_once(rt: HostRuntime) {
    let lock: SpinMutex<u64, Yield> = SpinMutex::new(0);
    let tests = Cell::new(0u32);
    let counts = |answer: bool| {
        tests.set(tests.get().wrapping_add(1));
        answer
    };
    drop(lock.lock_when(&rt, |_| counts(true)));
    equal(&rt, tests.get(), 1);
    drop(lock.lock_when_for(&rt, Duration::ZERO, |_| counts(false)));
    equal(&rt, tests.get(), 2);
    drop(lock.lock_when(&rt, |_| counts(tests.get() > 4)));
    equal(&rt, tests.get(), 6);
}

#[test]
fn two_threads_take_turns(rt: HostRuntime) {
    let turn: Mutex<u64, Yield> = Mutex::new(0);
    let turns = |first: u64| {
        for _ in 0..200u64 {
            let mut mine = turn.lock_when(&rt, |turn| *turn % 2 == first);
            *mine = mine.wrapping_add(1);
        }
    };
    thread::join(&rt, || turns(0), || turns(1));
    equal(&rt, turn.into_inner(), 400);
}

// A queue of at most so many messages. Returns how many messages came out, and their sum.
fn queue_of<R: Threads + Wait + Abort + Clock + AllocGlobal + Sync>(
    rt: &R,
    most: usize,
    producers: usize,
    consumers: usize,
) -> (u64, u64) {
    const EACH: u64 = 200;
    let queue: SpinMutex<VecDeque<u64>, Yield> = SpinMutex::new(VecDeque::new(rt.alloc()));
    let total = EACH.wrapping_mul(producers as u64);
    let taken: SpinMutex<u64, Yield> = SpinMutex::new(0);
    let party = |party: usize| {
        let (mut count, mut sum) = (0u64, 0u64);
        if party < producers {
            for message in 0..EACH {
                let mut room = queue.lock_when(rt, |queue| queue.len() < most);
                room.push_back(message).expect(rt, "memory");
            }
            return (count, sum);
        }
        while *taken.lock(rt) < total {
            let Some(mut found) = queue.lock_when_for(rt, brief(), |queue| !queue.is_empty()) else {
                continue;
            };
            let message = found.pop_front().expect(rt, "it is not empty");
            drop(found);
            sum = sum.wrapping_add(message);
            count = count.wrapping_add(1);
            let mut taken = taken.lock(rt);
            *taken = taken.wrapping_add(1);
        }
        (count, sum)
    };
    let parties = producers.wrapping_add(consumers);
    let done = map_indices(rt, rt.alloc(), parties, &party).expect(rt, "memory");
    let (mut count, mut sum) = (0u64, 0u64);
    for (messages, of_them) in &done {
        count = count.wrapping_add(*messages);
        sum = sum.wrapping_add(*of_them);
    }
    (count, sum)
}

#[test]
fn webkit_queues(rt: HostRuntime) {
    let found = [
        queue_of(&rt, 1, 1, 1),
        queue_of(&rt, 10, 1, 1),
        queue_of(&rt, 1, 5, 1),
        queue_of(&rt, 1, 1, 5),
        queue_of(&rt, 10, 5, 5),
    ];
    let (one, five) = ((200, 19900), (1000, 99500));
    equal(&rt, found, [one, one, five, one, five]);
}

// The callers that the examples have.

#[test]
fn each_job_is_taken_once(rt: HostRuntime) {
    let queue: SpinMutex<VecDeque<u64>, Yield> = SpinMutex::new(VecDeque::new(rt.alloc()));
    let give = || {
        for job in 0..100u64 {
            queue.lock(&rt).push_back(job).expect(&rt, "memory");
        }
    };
    let take = || {
        let mut in_order = true;
        for job in 0..100u64 {
            in_order = in_order && conditions::take_first(&rt, &queue) == job;
        }
        in_order
    };
    let ((), in_order) = thread::join(&rt, give, take);
    equal(&rt, in_order, true);
}

#[test]
fn callers_wait_or_give_up(rt: HostRuntime) {
    let places: SpinMutex<u64, Yield> = SpinMutex::new(2);
    let left = [
        conditions::take_place(&rt, &places),
        conditions::take_place(&rt, &places),
    ];
    let late = conditions::take_place_for(&rt, &places, brief());
    equal(&rt, (left, late), ([1, 0], false));
    let wait = || conditions::wait_for_more(&rt, &places, 3);
    let (found, ()) = thread::join(&rt, wait, || *places.lock(&rt) = 4);
    let taken = conditions::take_place_for(&rt, &places, long());
    equal(&rt, (found, taken), (4, true));
    let version: RwLock<u64, Yield> = RwLock::new(1);
    let wait = || conditions::wait_for_version(&rt, &version, 1);
    let (found, ()) = thread::join(&rt, wait, || *version.write(&rt) = 2);
    equal(&rt, found, 2);
}
