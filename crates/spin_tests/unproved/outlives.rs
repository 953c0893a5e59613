//! Threads, guards and structs that outlive the function that made their lock.
use crate::equal::equal;
use spin::mutex::SpinMutex;
use spin::relax::Yield;
use spin_examples::forever::{Session, forever};
use spin_examples::guide::pool::Pool;
use std::alloc::Global;
use std::sync::Arc;
use std::thread;

#[test]
fn an_arc_of_a_lock_moves_into_threads(rt: HostRuntime) {
    let lock: Arc<SpinMutex<u64, Yield>, Global> = Arc::new(rt.alloc(), SpinMutex::new(0)).expect(
        &rt, "memory",
    );
    let theirs = Arc::try_clone(&lock).expect(&rt, "memory");
    let host = rt;
    let child = thread::spawn(&rt, move || {
        let mut guard = theirs.lock(&host);
        *guard = guard.saturating_add(1);
    })
    .expect(&rt, "a thread");
    child.join(&rt);
    equal(&rt, *lock.lock(&rt), 1);
}

#[test]
fn a_guard_of_a_leaked_lock_is_sent(rt: HostRuntime) {
    let lock = forever(rt.alloc(), 7).expect(&rt, "memory");
    let mut session = Session::open(&rt, lock);
    session.set(8);
    let child = thread::spawn(&rt, move || session.get()).expect(&rt, "a thread");
    equal(&rt, (child.join(&rt), lock.is_locked()), (8, false));
}

#[test]
fn a_drop_puts_the_item_back(rt: HostRuntime) {
    let items = Vec::from_array(rt.alloc(), [3u64]).expect(&rt, "memory");
    let pool = Pool::new(rt, rt.alloc(), items).expect(&rt, "memory");
    let first = pool.take().expect(&rt, "memory");
    let theirs = pool.share().expect(&rt, "memory");
    // The thread waits for the item. Then it has the pool alone.
    let child = thread::spawn(&rt, move || {
        let taken = theirs.take().map(|taken| taken.item());
        (taken, theirs.take().map(|taken| taken.item()))
    })
    .expect(&rt, "a thread");
    drop(pool);
    let item = first.item();
    drop(first);
    let seen = child.join(&rt);
    equal(&rt, (item, seen), (3, (Ok(3), Ok(3))));
}
