//! More threads than processors, each with the default strategy: each lock goes on. No contract says this. A test here
//! takes less than a second on an idle machine; one that stands still is ended by whoever runs it.
use crate::equal::equal;
use crate::mutex::threads::sum_of;
use crate::parts::{Crew, in_threads};
use crate::waiting::linger;
use spin_barrier::barrier::Barrier;
use spin_core::lock::Lock;
use spin_core::relax::YieldThenSleep;
use spin_fair::fair::FairMutex;
use spin_flag::spin::SpinMutex;
use spin_mutex::mutex::Mutex;
use spin_mutex::ticket::TicketMutex;
use spin_once::once::Once;
use spin_rwlock::rwlock::RwLock;
use std::process::Abort;
use std::sync::Wait;

// Six threads add a thousand times each, as in the tests of `std` and of parking_lot.
#[test]
fn lots_and_lots(rt: HostRuntime) {
    let alloc = rt.alloc();
    let sums = [
        sum_of(&rt, alloc, &<SpinMutex<u64>>::new(0), 6),
        sum_of(&rt, alloc, &<Mutex<u64>>::new(0), 6),
        sum_of(&rt, alloc, &<TicketMutex<u64>>::new(0), 6),
        sum_of(&rt, alloc, &<FairMutex<u64>>::new(0), 6),
        sum_of(&rt, alloc, &<RwLock<u64>>::new(0), 6),
        sum_of(&rt, alloc, &SpinMutex::<u64, YieldThenSleep>::new(0), 6),
    ];
    equal(&rt, sums, [6000; 6]);
}

/// Threads that add 1 each, and then wait until all have added, as in the first example of the Rust crate's mutex.
#[derive(Drop)]
struct Gathering {
    total: Mutex<u64>,
    all: Barrier,
}

impl Crew for Gathering {
    type Answer = u64;

    fn act<R: Abort + Wait>(&self, rt: &R, _index: usize) -> u64 {
        let mut guard = self.total.lock(rt);
        *guard = guard.wrapping_add(1);
        drop(guard);
        self.all.wait(rt);
        *self.total.lock(rt)
    }
}

#[test]
fn a_thousand_threads_take_a_ticket_each_and_gather(rt: HostRuntime) {
    let gathering = Gathering {
        total: Mutex::new(0),
        all: Barrier::new(1000),
    };
    let read = in_threads(&rt, rt.alloc(), &gathering, 1000);
    equal(&rt, read.as_slice(), [1000; 1000].as_slice());
}

/// Threads that add twenty times each.
#[derive(Drop)]
struct Adders<L>(L);

impl<L: Lock<u64>> Crew for Adders<L> {
    type Answer = ();

    fn act<R: Abort + Wait>(&self, rt: &R, _index: usize) {
        for _ in 0..20 {
            self.0.with(rt, |sum| *sum = sum.wrapping_add(1));
        }
    }
}

#[test]
fn a_hundred_threads_share_one_mutex(rt: HostRuntime) {
    let (flag, queue) = (
        Adders(<SpinMutex<u64>>::new(0)),
        Adders(<Mutex<u64>>::new(0)),
    );
    drop(in_threads(&rt, rt.alloc(), &flag, 100));
    drop(in_threads(&rt, rt.alloc(), &queue, 100));
    equal(&rt, [flag.0.into_inner(), queue.0.into_inner()], [2000; 2]);
}

/// Threads that wait for a value which the first of them makes late.
#[derive(Drop)]
struct Late(Once<u64>);

impl Crew for Late {
    type Answer = u64;

    fn act<R: Abort + Wait>(&self, rt: &R, index: usize) -> u64 {
        if index != 0 {
            return *self.0.wait(rt);
        }
        linger(rt);
        *self.0.call_once(rt, || {
            linger(rt);
            7
        })
    }
}

#[test]
fn thirty_threads_wait_for_one_value(rt: HostRuntime) {
    let late = Late(Once::new());
    let values = in_threads(&rt, rt.alloc(), &late, 30);
    equal(&rt, values.as_slice(), [7; 30].as_slice());
}
