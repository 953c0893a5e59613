//! What no contract says of an event and of a condition variable: a wait ends once it is notified. Most tests are those
//! that `std` and `parking_lot` have for a `Condvar`.
use crate::equal::equal;
use spin::Condvar;
use spin::mutex::{FairMutex, Mutex, SpinMutex, TicketMutex};
use spin::relax::Yield;
use spin::rwlock::RwLock;
use spin_event::Event;
use spin_examples::job_queue::JobQueue;
use spin_history::history::{BlankLog, Snapshot};
use std::collections::VecDeque;
use std::marker::Brand;
use std::process::Abort;
use std::sync::Wait;
use std::thread;
use std::thread::{Threads, map_indices};
use std::time::{Clock, Duration, Instant};

fn brief() -> Duration {
    Duration::from_millis(5)
}

fn long() -> Duration {
    Duration::from_secs(600)
}

// One thread gives, and one takes when there is something. Then each call that gives up does so.
macro_rules! gives_and_takes {
    ($rt:expr, $free:expr, $call:ident) => {{
        let (rt, free, changed) = ($rt, $free, Condvar::new());
        let give = || {
            for _ in 0..1000u64 {
                let mut guard = free.$call(rt);
                *guard = guard.saturating_add(1);
                drop(guard);
                changed.notify_one();
            }
        };
        let take = || {
            for _ in 0..1000u64 {
                *changed.wait_while(rt, free.$call(rt), |free| *free == 0) -= 1;
            }
        };
        thread::join(rt, give, take);
        let (guard, result) = changed.wait_timeout(rt, free.$call(rt), brief());
        let late = result.timed_out();
        let (guard, result) = changed.wait_timeout_while(rt, guard, brief(), |free| *free == 0);
        let unmet = result.timed_out();
        let (guard, result) = changed.wait_timeout_while(rt, guard, long(), |free| *free > 0);
        equal(rt, (*guard, late, unmet, result.timed_out()), (0, true, true, false));
    }};
}

#[test]
fn each_lock_sleeps_until_it_is_notified(rt: HostRuntime) {
    gives_and_takes!(&rt, &SpinMutex::<u64, Yield>::new(0), lock);
    gives_and_takes!(&rt, &TicketMutex::<u64, Yield>::new(0), lock);
    gives_and_takes!(&rt, &Mutex::<u64, Yield>::new(0), lock);
    gives_and_takes!(&rt, &FairMutex::<u64, Yield>::new(0), lock);
    gives_and_takes!(&rt, &RwLock::<u64, Yield>::new(0), write);
}

#[test]
fn smoke(rt: HostRuntime) {
    let changed = Condvar::new();
    changed.notify_one();
    changed.notify_all();
    let same = Condvar::default();
    same.notify_all();
}

#[test]
fn notify_one(rt: HostRuntime) {
    let (lock, condvar): (SpinMutex<(), Yield>, Condvar) = (SpinMutex::new(()), Condvar::new());
    // Nobody can notify before the wait has released the lock.
    let (guard, changed) = (lock.lock(&rt), &condvar);
    let notify = || {
        drop(lock.lock(&rt));
        changed.notify_one();
    };
    let wait = move || drop(changed.wait(&rt, guard));
    thread::join(&rt, wait, notify);
}

#[test]
fn notify_all(rt: HostRuntime) {
    const MANY: u64 = 10;
    // How many have come, and whether they may go.
    let state: SpinMutex<(u64, bool), Yield> = SpinMutex::new((0, false));
    let (come, go) = (Condvar::new(), Condvar::new());
    let party = |party: usize| {
        if party == 0 {
            let mut all = come.wait_while(&rt, state.lock(&rt), |state| state.0 < MANY);
            all.1 = true;
            drop(all);
            go.notify_all();
            return;
        }
        let mut came = state.lock(&rt);
        came.0 = came.0.wrapping_add(1);
        if came.0 == MANY {
            come.notify_one();
        }
        let mut may_go = go.wait_while(&rt, came, |state| !state.1);
        may_go.0 = may_go.0.wrapping_sub(1);
    };
    map_indices(&rt, rt.alloc(), 11, &party).expect(&rt, "memory");
    equal(&rt, state.into_inner(), (0, true));
}

#[test]
fn wait_while(rt: HostRuntime) {
    let (started, changed): (Mutex<bool, Yield>, Condvar) = (Mutex::new(false), Condvar::new());
    let wait = || *changed.wait_while(&rt, started.lock(&rt), |started| !*started);
    let start = || {
        *started.lock(&rt) = true;
        changed.notify_one();
    };
    let (found, ()) = thread::join(&rt, wait, start);
    equal(&rt, found, true);
}

#[test]
fn a_condition_may_change_the_value(rt: HostRuntime) {
    let (lock, changed): (SpinMutex<u64, Yield>, Condvar) = (SpinMutex::new(3), Condvar::new());
    let guard = changed.wait_while(&rt, lock.lock(&rt), |value| {
        *value = value.wrapping_add(4);
        false
    });
    equal(&rt, *guard, 7);
}

fn elapsed(rt: &(impl Abort + Clock), start: Instant) -> Duration {
    start.elapsed(rt).expect(rt, "a clock")
}

#[test]
fn wait_timeout_wait(rt: HostRuntime) {
    let (lock, changed): (SpinMutex<(), Yield>, Condvar) = (SpinMutex::new(()), Condvar::new());
    let start = Instant::now(&rt).expect(&rt, "a clock");
    let mut guard = lock.lock(&rt);
    for _ in rt.forever() {
        let (again, result) = changed.wait_timeout(&rt, guard, brief());
        guard = again;
        // A wait may return for no reason.
        if result.timed_out() {
            break;
        }
    }
    equal(&rt, elapsed(&rt, start) >= brief(), true);
}

#[test]
fn wait_timeout_wake(rt: HostRuntime) {
    let (lock, changed): (SpinMutex<bool, Yield>, Condvar) = (
        SpinMutex::new(false),
        Condvar::new(),
    );
    let wake = || {
        thread::sleep(&rt, brief());
        *lock.lock(&rt) = true;
        changed.notify_one();
    };
    let wait = || {
        let mut guard = lock.lock(&rt);
        let mut late = false;
        for _ in rt.forever() {
            if *guard {
                break;
            }
            let (again, result) = changed.wait_timeout(&rt, guard, long());
            guard = again;
            late = late || result.timed_out();
        }
        late
    };
    let (late, ()) = thread::join(&rt, wait, wake);
    equal(&rt, late, false);
}

#[test]
fn wait_timeout_while(rt: HostRuntime) {
    let (lock, changed): (SpinMutex<u64, Yield>, Condvar) = (SpinMutex::new(0), Condvar::new());
    let unmet = changed
        .wait_timeout_while(&rt, lock.lock(&rt), brief(), |_| true)
        .1;
    let met = changed
        .wait_timeout_while(&rt, lock.lock(&rt), Duration::ZERO, |_| false)
        .1;
    let wake = || {
        thread::sleep(&rt, brief());
        *lock.lock(&rt) = 1;
        changed.notify_one();
    };
    let wait = || changed
        .wait_timeout_while(&rt, lock.lock(&rt), long(), |value| *value == 0)
        .1;
    let (woken, ()) = thread::join(&rt, wait, wake);
    let late = [unmet.timed_out(), met.timed_out(), woken.timed_out()];
    equal(&rt, late, [true, false, false]);
}

#[test]
fn one_condition_serves_two_locks(rt: HostRuntime) {
    let (one, other): (SpinMutex<bool, Yield>, Mutex<bool, Yield>) = (
        SpinMutex::new(false),
        Mutex::new(false),
    );
    let changed = Condvar::new();
    let wait = || {
        let first = || *changed.wait_while(&rt, one.lock(&rt), |value| !*value);
        let second = || *changed.wait_while(&rt, other.lock(&rt), |value| !*value);
        thread::join(&rt, first, second)
    };
    let wake = || {
        *one.lock(&rt) = true;
        *other.lock(&rt) = true;
        changed.notify_all();
    };
    let (woken, ()) = thread::join(&rt, wait, wake);
    equal(&rt, woken, (true, true));
}

#[test]
fn two_threads_take_turns(rt: HostRuntime) {
    let (turn, changed): (Mutex<u64, Yield>, Condvar) = (Mutex::new(0), Condvar::new());
    let turns = |first: u64| {
        for _ in 0..200u64 {
            let mut mine = changed.wait_while(&rt, turn.lock(&rt), |turn| *turn % 2 != first);
            *mine = mine.wrapping_add(1);
            drop(mine);
            changed.notify_one();
        }
    };
    thread::join(&rt, || turns(0), || turns(1));
    equal(&rt, turn.into_inner(), 400);
}

#[test]
fn an_event_ends_each_wait_that_listened(rt: HostRuntime) {
    let event = Event::new();
    let (first, second) = (event.listen(), event.listen());
    event.notify_one();
    // Neither sleeps yet, so one ring ends both.
    first.wait(&rt);
    second.wait(&rt);
    let timed = event.listen();
    timed.wait_timeout(&rt, brief());
    let counted = event.listen().count();
    event.ring().wake_all();
    counted.park(&rt).uncount();
    let counted = event.listen().count();
    counted.park_timeout(&rt, brief()).uncount();
    equal(&rt, event.listen().has_rung(), false);
}

// A queue of at most so many jobs. Returns how many jobs came out, and their sum.
fn queue_of<R: Threads + Wait + Abort + AllocGlobal + Sync>(
    rt: &R,
    most: usize,
    producers: usize,
    consumers: usize,
    each: u64,
) -> (u64, u64) {
    let (added, taken) = (BlankLog::new().open(), BlankLog::new().open());
    let queue: JobQueue<u64, Brand, Brand> = JobQueue::new(
        VecDeque::new(rt.alloc()),
        most,
        added,
        taken,
    );
    let left: SpinMutex<usize, Yield> = SpinMutex::new(producers);
    let party = |party: usize| {
        let (mut count, mut sum) = (0u64, 0u64);
        if party < producers {
            let mut seen = Snapshot::nothing();
            for job in 0..each {
                queue.add(rt, job, &mut seen).expect(rt, "it is open");
            }
            let mut left = left.lock(rt);
            *left = left.wrapping_sub(1);
            // The last one closes the queue.
            if *left == 0 {
                queue.close(rt);
            }
            return (count, sum);
        }
        let mut seen = Snapshot::nothing();
        for _ in rt.forever() {
            let Some(job) = queue.take(rt, &mut seen) else {
                break;
            };
            sum = sum.wrapping_add(job);
            count = count.wrapping_add(1);
        }
        (count, sum)
    };
    let parties = producers.wrapping_add(consumers);
    let done = map_indices(rt, rt.alloc(), parties, &party).expect(rt, "memory");
    let (mut count, mut sum) = (0u64, 0u64);
    for (jobs, of_them) in &done {
        count = count.wrapping_add(*jobs);
        sum = sum.wrapping_add(*of_them);
    }
    (count, sum)
}

#[test]
fn webkit_queues(rt: HostRuntime) {
    let found = [
        queue_of(&rt, 1, 1, 1, 200),
        queue_of(&rt, 10, 1, 1, 200),
        queue_of(&rt, 1, 5, 1, 200),
        queue_of(&rt, 1, 1, 5, 200),
        queue_of(&rt, 10, 5, 5, 200),
    ];
    let (one, five) = ((200, 19900), (1000, 99500));
    equal(&rt, found, [one, one, five, one, five]);
}

#[test]
fn a_hundred_producers_end(rt: HostRuntime) {
    equal(&rt, queue_of(&rt, 5, 100, 1, 20), (2000, 19000));
}
