//! The bytes of each lock of a `u64` and of its guard, in the order in which the program of `bench/ours` prints them.
use std::mem::size_of;

use spin::mutex::{FairMutex, FairMutexGuard, Mutex, MutexGuard, SpinMutex, SpinMutexGuard, TicketMutex, TicketMutexGuard};
use spin::rwlock::{RwLock, RwLockReadGuard, RwLockUpgradableGuard, RwLockWriteGuard};

macro_rules! print_each {
    ($($of:ty,)*) => {
        $(println!("{:27} {:>5}", stringify!($of), size_of::<$of>());)*
    };
}

pub fn print() {
    print_each!(
        SpinMutex<u64>,
        SpinMutexGuard<u64>,
        Mutex<u64>,
        MutexGuard<u64>,
        TicketMutex<u64>,
        TicketMutexGuard<u64>,
        FairMutex<u64>,
        FairMutexGuard<u64>,
        RwLock<u64>,
        RwLockReadGuard<u64>,
        RwLockUpgradableGuard<u64>,
        RwLockWriteGuard<u64>,
        std::sync::Mutex<u64>,
        std::sync::MutexGuard<u64>,
    );
}
