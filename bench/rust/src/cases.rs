//! The cases of the Rust crate `spin`.
use std::hint::spin_loop;
use std::sync::atomic::{AtomicBool, AtomicU64, Ordering::SeqCst};

use spin::mutex::{FairMutex, Mutex, SpinMutex, TicketMutex};
use spin::rwlock::RwLock;
use spin::{Barrier, LazyLock, Once, Yield};

use crate::case::{Adds, Case, OneWriter, Readers, Work, Works, Written};
use crate::{cases, exclusive, shared};

/// The atomic steps of a lock alone: an exchange of 0 for 1, and a store of 0.
#[derive(Default)]
pub struct Floor {
    word: AtomicU64,
}

impl Floor {
    fn take(&self) -> bool {
        self.word.compare_exchange(0, 1, SeqCst, SeqCst).is_ok()
    }

    #[inline(never)]
    fn wait(&self) {
        loop {
            if self.word.load(SeqCst) != 0 {
                spin_loop();
            } else if self.take() {
                return;
            }
        }
    }
}

impl Case for Floor {
    fn call(&self, _worker: u64) -> u64 {
        if !self.take() {
            self.wait();
        }
        self.word.store(0, SeqCst);
        1
    }

    // It keeps no number, so its word, which is 0 at the end.
    fn added(&self) -> u64 {
        self.word.load(SeqCst)
    }
}

exclusive! {
    SpinMutex<u64>, |it| *it.lock();
    Mutex<u64>, |it| *it.lock();
    Mutex<u64, Yield>, |it| *it.lock();
    TicketMutex<u64>, |it| *it.lock();
    FairMutex<u64>, |it| *it.lock();
    std::sync::Mutex<u64>, |it| *it.lock().expect("no call panics");
}

shared! {
    RwLock<u64>, |it| *it.read(), *it.write();
}

/// A lock that is taken by starving, trying once, and letting go.
#[derive(Default)]
pub struct Starvers {
    lock: FairMutex<u64>,
}

impl Case for Starvers {
    fn call(&self, _worker: u64) -> u64 {
        if let Ok(mut guard) = self.lock.starve().try_lock() {
            *guard = guard.wrapping_add(1);
        }
        0
    }

    fn added(&self) -> u64 {
        *self.lock.lock()
    }
}

/// A lock of a 1 that is taken by an upgradable reader, who then becomes a reader, and reads.
pub struct Upgrades {
    lock: RwLock<u64>,
}

impl Default for Upgrades {
    fn default() -> Self {
        Upgrades {
            lock: RwLock::new(1),
        }
    }
}

impl Case for Upgrades {
    fn call(&self, _worker: u64) -> u64 {
        *self.lock.upgradeable_read().downgrade()
    }

    fn added(&self) -> u64 {
        self.lock.read().wrapping_sub(1)
    }
}

/// A `Once` that has its value, a 1, and is looked at.
pub struct Gets {
    once: Once<u64>,
}

/// The same, asked with a closure, which does not run.
pub struct LateCalls {
    once: Once<u64>,
}

// A `Once` whose value, 1, is there.
fn complete() -> Once<u64> {
    let once = Once::new();
    once.call_once(|| 1);
    once
}

impl Default for Gets {
    fn default() -> Self {
        Gets { once: complete() }
    }
}

impl Default for LateCalls {
    fn default() -> Self {
        LateCalls { once: complete() }
    }
}

impl Case for Gets {
    fn call(&self, _worker: u64) -> u64 {
        self.once.get().copied().unwrap_or(0)
    }

    fn added(&self) -> u64 {
        0
    }
}

impl Case for LateCalls {
    fn call(&self, _worker: u64) -> u64 {
        *self.once.call_once(|| 2)
    }

    fn added(&self) -> u64 {
        0
    }
}

/// A `Once` that is made, asked for its value for the first time, and dropped.
#[derive(Default)]
pub struct FirstCalls;

impl Case for FirstCalls {
    // One worker alone does it. Its number comes in, so that the value is not known where the loop is compiled.
    fn call(&self, worker: u64) -> u64 {
        let once: Once<u64> = Once::new();
        *once.call_once(|| worker.wrapping_add(1))
    }

    fn added(&self) -> u64 {
        0
    }
}

/// A `LazyLock` that has its value, a 1, and is asked for it.
pub struct Forces {
    lazy: LazyLock<u64>,
}

impl Default for Forces {
    fn default() -> Self {
        let lazy: LazyLock<u64> = LazyLock::new(|| 1);
        LazyLock::force(&lazy);
        Forces { lazy }
    }
}

impl Case for Forces {
    fn call(&self, _worker: u64) -> u64 {
        *LazyLock::force(&self.lazy)
    }

    fn added(&self) -> u64 {
        0
    }
}

/// A barrier whose groups are of one party, who leads each.
pub struct Alone {
    barrier: Barrier,
}

impl Default for Alone {
    fn default() -> Self {
        Alone {
            barrier: Barrier::new(1),
        }
    }
}

impl Case for Alone {
    fn call(&self, _worker: u64) -> u64 {
        u64::from(self.barrier.wait().is_leader())
    }

    fn added(&self) -> u64 {
        0
    }
}

/// A barrier whose groups are all threads that do the case. A call is one wait of one of them.
pub struct Rounds {
    barrier: Barrier,
    threads: u64,
    stops: AtomicBool,
}

impl Default for Rounds {
    fn default() -> Self {
        Self::of(1, Work::default())
    }
}

impl Case for Rounds {
    fn of(threads: u64, _work: Work) -> Self {
        Rounds {
            barrier: Barrier::new(threads as usize),
            threads,
            stops: AtomicBool::new(false),
        }
    }

    // Who leads a group has seen as many waits as there are threads.
    fn call(&self, _worker: u64) -> u64 {
        if self.barrier.wait().is_leader() {
            self.threads
        } else {
            0
        }
    }

    // They end together: one that waited on would wait for those that have gone. So one of them looks for all, while the
    // others wait.
    fn is_to_stop(&self, told: &AtomicBool) -> bool {
        if self.barrier.wait().is_leader() {
            self.stops.store(told.load(SeqCst), SeqCst);
        }
        self.barrier.wait();
        self.stops.load(SeqCst)
    }

    fn added(&self) -> u64 {
        0
    }
}

cases! {
    "floor": Floor,
    "spin_mutex": Adds<SpinMutex<u64>>,
    "spin_mutex_work": Works<SpinMutex<u64>>,
    "mutex": Adds<Mutex<u64>>,
    "mutex_work": Works<Mutex<u64>>,
    "mutex_yield": Adds<Mutex<u64, Yield>>,
    "ticket_mutex": Adds<TicketMutex<u64>>,
    "fair_mutex": Adds<FairMutex<u64>>,
    "fair_starve": Starvers,
    "rw_read": Readers<RwLock<u64>>,
    "rw_write": Adds<Written<RwLock<u64>>>,
    "rw_write_work": Works<Written<RwLock<u64>>>,
    "rw_upgrade": Upgrades,
    "rw_one_writer": OneWriter<RwLock<u64>>,
    "once_get": Gets,
    "once_call": LateCalls,
    "once_first": FirstCalls,
    "lazy_force": Forces,
    "barrier_alone": Alone,
    "barrier_rounds": Rounds,
    "std_mutex": Adds<std::sync::Mutex<u64>>,
}
