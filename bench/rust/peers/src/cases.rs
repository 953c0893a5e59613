//! The cases of parking_lot (`pl`), of `std`, and of crossbeam's sharded lock (`sharded`).
use std::sync::atomic::{AtomicBool, Ordering::SeqCst};
use std::sync::{Barrier, LazyLock, OnceLock};

use crossbeam_utils::sync::ShardedLock;

use crate::case::{Adds, Case, OneWriter, Readers, Work, Works, Written};
use crate::{cases, exclusive, shared};

exclusive! {
    parking_lot::Mutex<u64>, |it| *it.lock();
    parking_lot::FairMutex<u64>, |it| *it.lock();
    std::sync::Mutex<u64>, |it| *it.lock().expect("no call panics");
}

shared! {
    parking_lot::RwLock<u64>, |it| *it.read(), *it.write();
    std::sync::RwLock<u64>, |it| *it.read().expect("no call panics"), *it.write().expect("no call panics");
    ShardedLock<u64>, |it| *it.read().expect("no call panics"), *it.write().expect("no call panics");
}

/// A `OnceLock` that has its value, a 1, and is looked at.
pub struct Gets(OnceLock<u64>);

/// The same, asked with a closure, which does not run.
pub struct LateCalls(OnceLock<u64>);

impl Default for Gets {
    fn default() -> Self {
        Gets(OnceLock::from(1))
    }
}

impl Default for LateCalls {
    fn default() -> Self {
        LateCalls(OnceLock::from(1))
    }
}

impl Case for Gets {
    #[inline(always)]
    fn call(&self, _worker: u64) -> u64 {
        self.0.get().copied().unwrap_or(0)
    }

    fn added(&self) -> u64 {
        0
    }
}

impl Case for LateCalls {
    #[inline(always)]
    fn call(&self, _worker: u64) -> u64 {
        *self.0.get_or_init(|| 2)
    }

    fn added(&self) -> u64 {
        0
    }
}

/// A `OnceLock` that is made, asked for its value for the first time, and dropped.
#[derive(Default)]
pub struct FirstCalls;

impl Case for FirstCalls {
    #[inline(always)]
    fn call(&self, worker: u64) -> u64 {
        let once = OnceLock::new();
        *once.get_or_init(|| worker.wrapping_add(1))
    }

    fn added(&self) -> u64 {
        0
    }
}

/// A `LazyLock` that has its value, a 1, and is asked for it.
pub struct Forces(LazyLock<u64>);

impl Default for Forces {
    fn default() -> Self {
        let lazy: LazyLock<u64> = LazyLock::new(|| 1);
        LazyLock::force(&lazy);
        Forces(lazy)
    }
}

impl Case for Forces {
    #[inline(always)]
    fn call(&self, _worker: u64) -> u64 {
        *LazyLock::force(&self.0)
    }

    fn added(&self) -> u64 {
        0
    }
}

/// A barrier whose groups are all threads that do the case. A call is one wait of one of them.
pub struct Rounds {
    barrier: Barrier,
    threads: u64,
    stops: AtomicBool,
}

impl Default for Rounds {
    fn default() -> Self {
        Self::of(1, Work::default())
    }
}

impl Case for Rounds {
    fn of(threads: u64, _work: Work) -> Self {
        Rounds {
            barrier: Barrier::new(threads as usize),
            threads,
            stops: AtomicBool::new(false),
        }
    }

    // Who leads a group has seen as many waits as there are threads.
    fn call(&self, _worker: u64) -> u64 {
        if self.barrier.wait().is_leader() {
            self.threads
        } else {
            0
        }
    }

    // They end together: one that waited on would wait for those that have gone.
    fn is_to_stop(&self, told: &AtomicBool) -> bool {
        if self.barrier.wait().is_leader() {
            self.stops.store(told.load(SeqCst), SeqCst);
        }
        self.barrier.wait();
        self.stops.load(SeqCst)
    }

    fn added(&self) -> u64 {
        0
    }
}

cases! {
    "pl_mutex": Adds<parking_lot::Mutex<u64>>,
    "pl_mutex_work": Works<parking_lot::Mutex<u64>>,
    "pl_fair_mutex": Adds<parking_lot::FairMutex<u64>>,
    "pl_fair_mutex_work": Works<parking_lot::FairMutex<u64>>,
    "pl_rw_read": Readers<parking_lot::RwLock<u64>>,
    "pl_rw_write": Adds<Written<parking_lot::RwLock<u64>>>,
    "pl_rw_write_work": Works<Written<parking_lot::RwLock<u64>>>,
    "pl_rw_one_writer": OneWriter<parking_lot::RwLock<u64>>,
    "std_mutex": Adds<std::sync::Mutex<u64>>,
    "std_mutex_work": Works<std::sync::Mutex<u64>>,
    "std_rw_read": Readers<std::sync::RwLock<u64>>,
    "std_rw_write": Adds<Written<std::sync::RwLock<u64>>>,
    "std_rw_write_work": Works<Written<std::sync::RwLock<u64>>>,
    "std_rw_one_writer": OneWriter<std::sync::RwLock<u64>>,
    "std_once_get": Gets,
    "std_once_call": LateCalls,
    "std_once_first": FirstCalls,
    "std_lazy_force": Forces,
    "std_barrier_alone": Rounds,
    "std_barrier_rounds": Rounds,
    "sharded_rw_read": Readers<ShardedLock<u64>>,
    "sharded_rw_write": Adds<Written<ShardedLock<u64>>>,
    "sharded_rw_one_writer": OneWriter<ShardedLock<u64>>,
}
