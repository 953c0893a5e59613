//! Beside whom `try_read_weak` succeeds.
use crate::equal::equal;
use spin_rwlock::rwlock::RwLock;

fn found(lock: &RwLock<u64>) -> Option<u64> {
    lock.try_read_weak().map(|guard| *guard)
}

#[test]
fn a_weak_try_to_read_is_granted_beside_readers(rt: HostRuntime) {
    let lock: RwLock<u64> = RwLock::new(1);
    let free = found(&lock);
    let (reader, upgradable) = (lock.read(&rt), lock.upgradeable_read(&rt));
    let beside_readers = found(&lock);
    equal(&rt, lock.reader_count(), 2);
    drop((reader, upgradable));
    let writer = lock.write(&rt);
    let beside_writer = found(&lock);
    drop(writer);
    equal(
        &rt,
        [free, beside_readers, beside_writer],
        [Some(1), Some(1), None],
    );
}
