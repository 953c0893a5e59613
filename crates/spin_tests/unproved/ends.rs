//! How the value of each lock is dropped. A reader-writer lock has three cases, one for each kind of holder.
use super::counted::Counted;
use crate::equal::equal;
use spin_fair::fair::{FairMutex, FairMutexGuard};
use spin_flag::spin::{SpinMutex, SpinMutexGuard};
use spin_mutex::mutex::{Mutex, MutexGuard};
use spin_mutex::ticket::{TicketMutex, TicketMutexGuard};
use spin_rwlock::rwlock::{RwLock, RwLockReadGuard, RwLockUpgradableGuard, RwLockWriteGuard};
use std::cell::Cell;
use std::sync::Wait;

/// How many values have been dropped at five moments: after the drop of an unused lock; of a lock with a leaked guard;
/// of a lock with a dropped hold; after `into_inner` of a lock; and after the drop of the value that it returned.
type Ends = [u32; 5];

const ONCE: Ends = [1, 2, 3, 3, 4];

// For a lock named `$lock`: an expression that leaks a guard of it, one that makes a hold, and one that acquires the
// lock before `into_inner`.
macro_rules! ends {
    ($Lock:ident, $lock:ident, $leaked:expr, $held:expr, $taken:expr) => {{
        let ends = Cell::new(0);
        drop($Lock::<Counted>::new(Counted { ends: &ends }));
        let dropped = ends.get();
        let $lock: $Lock<Counted> = $Lock::new(Counted { ends: &ends });
        let _ = $leaked;
        drop($lock);
        let leaked = ends.get();
        let $lock: $Lock<Counted> = $Lock::new(Counted { ends: &ends });
        drop($held);
        drop($lock);
        let held = ends.get();
        let $lock: $Lock<Counted> = $Lock::new(Counted { ends: &ends });
        drop($taken);
        let value = $lock.into_inner();
        let opened = ends.get();
        drop(value);
        [dropped, leaked, held, opened, ends.get()]
    }};
}

fn spin_mutex(rt: &impl Wait) -> Ends {
    ends!(
        SpinMutex,
        lock,
        SpinMutexGuard::leak(lock.lock(rt)),
        SpinMutexGuard::hold(lock.lock(rt)),
        lock.lock(rt)
    )
}

fn ticket_mutex(rt: &impl Wait) -> Ends {
    ends!(
        TicketMutex,
        lock,
        TicketMutexGuard::leak(lock.lock(rt)),
        TicketMutexGuard::hold(lock.lock(rt)),
        lock.lock(rt)
    )
}

fn fair_mutex(rt: &impl Wait) -> Ends {
    ends!(
        FairMutex,
        lock,
        FairMutexGuard::leak(lock.lock(rt)),
        FairMutexGuard::hold(lock.lock(rt)),
        lock.lock(rt)
    )
}

fn mutex(rt: &impl Wait) -> Ends {
    ends!(
        Mutex,
        lock,
        MutexGuard::leak(lock.lock(rt)),
        MutexGuard::hold(lock.lock(rt)),
        lock.lock(rt)
    )
}

#[test]
fn the_value_of_a_mutex_ends_once(rt: HostRuntime) {
    let ends = [
        spin_mutex(&rt),
        ticket_mutex(&rt),
        fair_mutex(&rt),
        mutex(&rt),
    ];
    equal(&rt, ends, [ONCE; 4]);
}

fn reader(rt: &impl Wait) -> Ends {
    ends!(
        RwLock,
        lock,
        RwLockReadGuard::leak(lock.read(rt)),
        RwLockReadGuard::hold(lock.read(rt)),
        lock.read(rt)
    )
}

// An upgradable reader has no hold of its own, so it first becomes a reader.
fn upgradable_reader(rt: &impl Wait) -> Ends {
    ends!(
        RwLock,
        lock,
        RwLockUpgradableGuard::leak(lock.upgradeable_read(rt)),
        RwLockReadGuard::hold(lock.upgradeable_read(rt).downgrade()),
        lock.upgradeable_read(rt)
    )
}

fn writer(rt: &impl Wait) -> Ends {
    ends!(
        RwLock,
        lock,
        RwLockWriteGuard::leak(lock.write(rt)),
        RwLockWriteGuard::hold(lock.write(rt)),
        lock.write(rt)
    )
}

#[test]
fn the_value_of_a_lock_for_readers_ends_once(rt: HostRuntime) {
    let ends = [reader(&rt), upgradable_reader(&rt), writer(&rt)];
    equal(&rt, ends, [ONCE; 3]);
}
