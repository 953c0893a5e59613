//! Tests of the names at the root of `spin`, each by its path there. Begin at [`each_mutex_by_its_name`].
use crate::equal::equal;
use spin::mutex::{
    FairMutex, FairMutexGuard, SpinMutex, SpinMutexGuard, TicketMutex, TicketMutexGuard,
};
use spin::relax::Loop;
use spin::step::flag;
use spin::{
    Barrier, Lazy, LazyLock, Mutex, MutexGuard, Once, RelaxStrategy, RwLock, RwLockReadGuard, Spin,
    Yield, barrier, mutex,
};
use std::mem::size_of;

#[test]
fn each_mutex_by_its_name(rt: HostRuntime) {
    let lock: Mutex<u64> = Mutex::new(1);
    let mut guard: MutexGuard<u64, Spin> = lock.lock(&rt);
    *guard = 2;
    drop(guard);
    let written = lock.into_inner();
    let lock: mutex::Mutex<u64, Yield> = mutex::Mutex::new(3);
    let locked = lock.is_locked();
    let spin: SpinMutex<u64> = SpinMutex::new(4);
    let spins: SpinMutexGuard<u64> = spin.lock(&rt);
    let ticket: TicketMutex<u64> = TicketMutex::new(5);
    let queues: TicketMutexGuard<u64> = ticket.lock(&rt);
    equal(
        &rt,
        (locked, [written, *spins, *queues]),
        (false, [2, 4, 5]),
    );
}

/// Locks that a `const fn` makes.
#[derive(Drop)]
struct Kept {
    first: Mutex<u64>,
    second: SpinMutex<u64>,
    third: FairMutex<u64>,
    fourth: RwLock<u64>,
    fifth: Barrier,
}

const fn make_kept(value: u64) -> Kept {
    Kept {
        first: Mutex::new(value),
        second: SpinMutex::new(value),
        third: FairMutex::new(value),
        fourth: RwLock::new(value),
        fifth: Barrier::new(1),
    }
}

#[test]
fn a_const_fn_makes_locks(rt: HostRuntime) {
    let kept = make_kept(7);
    let held = [
        *kept.first.lock(&rt),
        *kept.second.lock(&rt),
        *kept.third.lock(&rt),
    ];
    let read = kept.fourth.try_read_weak().map(|guard| *guard);
    let leads = kept.fifth.wait(&rt).is_leader();
    equal(&rt, (held, read, leads), ([7; 3], Some(7), true));
}

#[test]
fn barriers_steps_and_strategies(rt: HostRuntime) {
    let one: Barrier = Barrier::new(1);
    let waited: barrier::BarrierWaitResult = one.wait(&rt);
    let one: barrier::Barrier<Yield> = barrier::Barrier::new(1);
    let leads = [waited.is_leader(), one.wait(&rt).is_leader()];
    equal(&rt, (leads, flag::lock(false)), ([true; 2], Some(true)));
    Spin::relax(&rt);
    Yield::relax(&rt);
    Loop::relax(&rt);
}

#[test]
fn values_that_are_made_once(rt: HostRuntime) {
    let once: Once<u64> = Once::new();
    let made = *once.call_once(&rt, || 6);
    let unit: Once = Once::initialized(());
    let completed = unit.is_completed();
    let lazy: LazyLock<u64, _> = LazyLock::new(|| 7);
    let forced = *LazyLock::force(&lazy, &rt);
    let lazy: Lazy<u64, _> = Lazy::new(|| 8);
    let values = [made, forced, *Lazy::force(&lazy, &rt)];
    equal(&rt, (completed, values), (true, [6, 7, 8]));
}

// The size in bytes of each lock of a `u64`: one word and the value, or with tickets two words and the value. A `Once`
// and a `LazyLock` have a word and a stage, which says whether they have the seed or the value. A guard is a pointer.
#[test]
fn a_lock_has_the_words_that_it_needs(rt: HostRuntime) {
    for (bytes, wanted) in [
        (size_of::<SpinMutex<u64>>(), 16),
        (size_of::<FairMutex<u64>>(), 16),
        (size_of::<RwLock<u64>>(), 16),
        (size_of::<TicketMutex<u64>>(), 24),
        (size_of::<Mutex<u64>>(), 24),
        (size_of::<Once<u64>>(), 24),
        (size_of::<LazyLock<u64>>(), 24),
        (size_of::<SpinMutexGuard<u64>>(), 8),
        (size_of::<FairMutexGuard<u64>>(), 8),
        (size_of::<RwLockReadGuard<u64>>(), 8),
        (size_of::<TicketMutexGuard<u64>>(), 8),
        (size_of::<MutexGuard<u64>>(), 8),
    ] {
        equal(&rt, bytes, wanted);
    }
}
