//! The sizes of the locks and their guards.
use spin_fair::fair::{FairMutex, FairMutexGuard};
use spin_flag::spin::{SpinMutex, SpinMutexGuard};
use spin_mutex::mutex::{Mutex, MutexGuard};
use spin_mutex::ticket::{TicketMutex, TicketMutexGuard};
use spin_rwlock::rwlock::{RwLock, RwLockReadGuard, RwLockUpgradableGuard, RwLockWriteGuard};
use std::mem::size_of;
use std::{io, sync};

/// Returns the size in bytes of each lock of a `u64` and of its guard, in the order that `bench/compare` uses.
fn sizes() -> [usize; 14] {
    [
        size_of::<SpinMutex<u64>>(),
        size_of::<SpinMutexGuard<'static, u64>>(),
        size_of::<Mutex<u64>>(),
        size_of::<MutexGuard<'static, u64>>(),
        size_of::<TicketMutex<u64>>(),
        size_of::<TicketMutexGuard<'static, u64>>(),
        size_of::<FairMutex<u64>>(),
        size_of::<FairMutexGuard<'static, u64>>(),
        size_of::<RwLock<u64>>(),
        size_of::<RwLockReadGuard<'static, u64>>(),
        size_of::<RwLockUpgradableGuard<'static, u64>>(),
        size_of::<RwLockWriteGuard<'static, u64>>(),
        size_of::<sync::Mutex<u64>>(),
        size_of::<sync::MutexGuard<'static, u64>>(),
    ]
}

pub fn print<R: Print>(rt: &R) -> io::Result<()> {
    for bytes in sizes() {
        println!(rt; "{bytes}")?;
    }
    Ok(())
}
