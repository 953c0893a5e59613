//! Which calls of an `RwLock` succeed, and what the counts tell.
use crate::equal::equal;
use spin_core::relax::Loop;
use spin_rwlock::rwlock::{RwLock, RwLockReadGuard, RwLockUpgradableGuard, RwLockWriteGuard};
use std::process::Abort;
use std::sync::Wait;

const WEAK_ATTEMPTS: u32 = 10_000_000;

// Which of `try_read`, `try_upgradeable_read` and `try_write` succeed.
type Granted = [bool; 3];

const FREE: Granted = [true; 3];

const WRITTEN: Granted = [false; 3];

const READ: Granted = [true, true, false];

// One of the readers is upgradable.
const READ_UPGRADABLY: Granted = [true, false, false];

// Checks which tries succeed, then how many threads read and how many write, and whether any holds the lock.
fn shows<R: Abort + Wait>(rt: &R, lock: &RwLock<u64>, granted: Granted, counts: [usize; 2]) {
    let reads = lock.try_read(rt).is_some();
    let upgrades = lock.try_upgradeable_read(rt).is_some();
    let writes = lock.try_write().is_some();
    let counted = [lock.reader_count(), lock.writer_count()];
    equal(rt, ([reads, upgrades, writes], counted), (granted, counts));
    let locked = [lock.is_locked(), lock.is_locked_exclusive()];
    equal(rt, locked, [counts != [0, 0], counts[1] == 1]);
}

#[test]
fn the_upgradable_reader_counts_as_a_reader(rt: HostRuntime) {
    let lock: RwLock<u64> = RwLock::new(1);
    let reader = lock.read(&rt);
    let upgradable = lock.upgradeable_read(&rt);
    shows(&rt, &lock, READ_UPGRADABLY, [2, 0]);
    let other = lock.read(&rt);
    shows(&rt, &lock, READ_UPGRADABLY, [3, 0]);
    drop(other);
    drop(reader);
    shows(&rt, &lock, READ_UPGRADABLY, [1, 0]);
    drop(upgradable);
    shows(&rt, &lock, FREE, [0, 0]);
}

#[test]
fn an_upgradable_reader_beside_a_reader(rt: HostRuntime) {
    let lock: RwLock<u64> = RwLock::new(1);
    let reader = lock.read(&rt);
    let upgradable = lock.upgradeable_read(&rt);
    let still = upgradable
        .try_upgrade()
        .err()
        .expect(&rt, "beside a reader");
    shows(&rt, &lock, READ_UPGRADABLY, [2, 0]);
    drop(reader);
    let writer = still.try_upgrade().ok().expect(&rt, "alone");
    shows(&rt, &lock, WRITTEN, [0, 1]);
    drop(writer);
    shows(&rt, &lock, FREE, [0, 0]);
}

#[test]
fn a_writer_goes_on_as_a_reader(rt: HostRuntime) {
    let lock: RwLock<u64> = RwLock::new(1);
    let writer = lock.write(&rt);
    shows(&rt, &lock, WRITTEN, [0, 1]);
    let reader = writer.downgrade();
    shows(&rt, &lock, READ, [1, 0]);
    let other = lock.upgradeable_read(&rt);
    shows(&rt, &lock, READ_UPGRADABLY, [2, 0]);
    equal(&rt, (*reader, *other), (1, 1));
}

#[test]
fn held_readers_go_one_by_one(rt: HostRuntime) {
    let lock: RwLock<u64> = RwLock::new(1);
    let first = RwLockReadGuard::hold(lock.read(&rt));
    let second = RwLockReadGuard::hold(lock.read(&rt));
    let third = RwLockReadGuard::hold(lock.read(&rt));
    shows(&rt, &lock, READ, [3, 0]);
    RwLock::force_read_decrement(first);
    RwLock::force_read_decrement(second);
    shows(&rt, &lock, READ, [1, 0]);
    RwLock::force_read_decrement(third);
    shows(&rt, &lock, FREE, [0, 0]);
}

#[test]
fn an_upgradable_reader_goes_on_as_a_reader(rt: HostRuntime) {
    let lock: RwLock<u64> = RwLock::new(1);
    let upgradable = lock.upgradeable_read(&rt);
    shows(&rt, &lock, READ_UPGRADABLY, [1, 0]);
    let other = lock.read(&rt);
    let reader = upgradable.downgrade();
    shows(&rt, &lock, READ, [2, 0]);
    equal(&rt, (*other, *reader), (1, 1));
}

#[test]
fn up_and_down_and_up_again(rt: HostRuntime) {
    let lock: RwLock<u64> = RwLock::new(1);
    let upgradable = lock.upgradeable_read(&rt);
    let mut writer = upgradable.try_upgrade().ok().expect(&rt, "alone");
    *writer = 2;
    let upgradable = writer.downgrade_to_upgradeable();
    shows(&rt, &lock, READ_UPGRADABLY, [1, 0]);
    equal(&rt, *upgradable, 2);
    let writer = upgradable.upgrade(&rt);
    shows(&rt, &lock, WRITTEN, [0, 1]);
    equal(&rt, *writer.downgrade(), 2);
}

#[test]
fn a_held_writer_lets_go_by_force(rt: HostRuntime) {
    let lock: RwLock<u64> = RwLock::new(1);
    let mut writer = lock.write(&rt);
    *writer = 58;
    let held = RwLockWriteGuard::hold(writer);
    shows(&rt, &lock, WRITTEN, [0, 1]);
    RwLock::force_write_unlock(held);
    shows(&rt, &lock, FREE, [0, 0]);
    equal(&rt, lock.into_inner(), 58);
}

#[test]
fn a_dropped_hold_frees_nothing(rt: HostRuntime) {
    let read: RwLock<u64> = RwLock::new(1);
    drop(RwLockReadGuard::hold(read.read(&rt)));
    shows(&rt, &read, READ, [1, 0]);
    let written: RwLock<u64> = RwLock::new(1);
    drop(RwLockWriteGuard::hold(written.write(&rt)));
    shows(&rt, &written, WRITTEN, [0, 1]);
    equal(&rt, (read.into_inner(), written.into_inner()), (1, 1));
}

#[test]
fn a_leaked_reader_stays(rt: HostRuntime) {
    let mut lock: RwLock<u64> = RwLock::new(1);
    let value = *RwLockReadGuard::leak(lock.read(&rt));
    shows(&rt, &lock, READ, [1, 0]);
    *lock.get_mut() = 5;
    equal(&rt, (value, lock.into_inner()), (1, 5));
}

#[test]
fn a_leaked_upgradable_reader_and_a_leaked_writer_stay(rt: HostRuntime) {
    let read: RwLock<u64> = RwLock::new(1);
    let value = *RwLockUpgradableGuard::leak(read.upgradeable_read(&rt));
    shows(&rt, &read, READ_UPGRADABLY, [1, 0]);
    let written: RwLock<u64> = RwLock::new(1);
    *RwLockWriteGuard::leak(written.write(&rt)) = 7;
    shows(&rt, &written, WRITTEN, [0, 1]);
    equal(&rt, (value, written.into_inner()), (1, 7));
}

#[test]
fn the_owner_takes_no_lock(rt: HostRuntime) {
    let mut lock: RwLock<u64> = RwLock::new(1);
    *lock.get_mut() = 5;
    shows(&rt, &lock, FREE, [0, 0]);
    equal(&rt, lock.into_inner(), 5);
}

fn write_weakly(lock: &RwLock<u64, Loop>) -> Option<RwLockWriteGuard<'_, u64, Loop>> {
    for _ in 0..WEAK_ATTEMPTS {
        let granted = lock.try_write_weak();
        if granted.is_some() {
            return granted;
        }
    }
    None
}

fn upgrade_weakly(upgradable: RwLockUpgradableGuard<'_, u64, Loop>) -> Option<u64> {
    let mut upgradable = upgradable;
    for _ in 0..WEAK_ATTEMPTS {
        match upgradable.try_upgrade_weak() {
            Ok(writer) => return Some(*writer),
            Err(still) => upgradable = still,
        }
    }
    None
}

#[test]
fn a_weak_try_is_granted_in_the_end(rt: HostRuntime) {
    let lock: RwLock<u64, Loop> = RwLock::default();
    let writer = write_weakly(&lock).expect(&rt, "free");
    let found = upgrade_weakly(writer.downgrade_to_upgradeable());
    equal(&rt, found, Some(0));
}
