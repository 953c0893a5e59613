//! What is measured of any lock: a call takes it, adds 1 to the number under it or sees a 1 there, and lets go.
use std::sync::atomic::{AtomicBool, Ordering::SeqCst};

/// How many units of work a call does while it holds the lock, and before the next call.
#[derive(Clone, Copy, Default)]
pub struct Work {
    pub inside: u64,
    pub between: u64,
}

/// One lock, or what stands in its place. A call either adds 1 to what lies there, or sees a 1.
pub trait Case: Default + Sync {
    /// The lock that so many threads share, in calls that do this work.
    fn of(_threads: u64, _work: Work) -> Self {
        Self::default()
    }

    /// One call, in the worker of that number. It answers what it saw, or 0 where it has added.
    fn call(&self, worker: u64) -> u64;

    /// Whether the worker is to end, now that somebody may have told it to.
    fn is_to_stop(&self, told: &AtomicBool) -> bool {
        told.load(SeqCst)
    }

    /// How much all calls have added.
    fn added(&self) -> u64;
}

/// A lock under which one thread at a time has a number.
pub trait Exclusive: Default + Sync {
    fn with<A>(&self, section: impl FnOnce(&mut u64) -> A) -> A;
}

/// A lock under which one thread writes a number, or several read it.
pub trait Shared: Sync {
    fn of(number: u64) -> Self;
    fn read<A>(&self, section: impl FnOnce(&u64) -> A) -> A;
    fn write<A>(&self, section: impl FnOnce(&mut u64) -> A) -> A;
}

/// What is said of the types that lock in the same words: how they lock, and how their answer becomes a guard.
#[macro_export]
macro_rules! exclusive {
    ($($lock:ty, |$it:ident| $guard:expr;)*) => {
        $(impl $crate::case::Exclusive for $lock {
            #[inline(always)]
            fn with<A>(&self, section: impl FnOnce(&mut u64) -> A) -> A {
                let $it = self;
                section(&mut $guard)
            }
        })*
    };
}

#[macro_export]
macro_rules! shared {
    ($($lock:ty, |$it:ident| $read:expr, $write:expr;)*) => {
        $(impl $crate::case::Shared for $lock {
            fn of(number: u64) -> Self {
                <$lock>::new(number)
            }

            #[inline(always)]
            fn read<A>(&self, section: impl FnOnce(&u64) -> A) -> A {
                let $it = self;
                section(&$read)
            }

            #[inline(always)]
            fn write<A>(&self, section: impl FnOnce(&mut u64) -> A) -> A {
                let $it = self;
                section(&mut $write)
            }
        })*
    };
}

/// A lock whose number each call makes greater by 1.
#[derive(Default)]
pub struct Adds<L>(L);

impl<L: Exclusive> Case for Adds<L> {
    #[inline(always)]
    fn call(&self, _worker: u64) -> u64 {
        self.0.with(|sum| *sum = sum.wrapping_add(1));
        0
    }

    fn added(&self) -> u64 {
        self.0.with(|sum| *sum)
    }
}

/// The same, with work.
#[derive(Default)]
pub struct Works<L> {
    lock: L,
    work: Work,
}

// So many units of work on a number. Of another number than 0 they do not make 0.
#[inline(always)]
fn worked(units: u64, number: u64) -> u64 {
    (0..units).fold(number, |it, _| {
        (it ^ (it >> 7)).wrapping_mul(0x9E37_79B9_7F4A_7C15)
    })
}

impl<L: Exclusive> Case for Works<L> {
    fn of(_threads: u64, work: Work) -> Self {
        Works {
            lock: L::default(),
            work,
        }
    }

    #[inline(always)]
    fn call(&self, _worker: u64) -> u64 {
        let held = self.lock.with(|sum| {
            *sum = sum.wrapping_add(1);
            worked(self.work.inside, *sum)
        });
        u64::from(worked(self.work.between, held) == 0)
    }

    fn added(&self) -> u64 {
        self.lock.with(|sum| *sum)
    }
}

/// A read-write lock that everybody writes.
pub struct Written<L>(L);

impl<L: Shared> Default for Written<L> {
    fn default() -> Self {
        Written(L::of(0))
    }
}

impl<L: Shared> Exclusive for Written<L> {
    #[inline(always)]
    fn with<A>(&self, section: impl FnOnce(&mut u64) -> A) -> A {
        self.0.write(section)
    }
}

/// A lock of a 1 that everybody only reads.
pub struct Readers<L>(L);

impl<L: Shared> Default for Readers<L> {
    fn default() -> Self {
        Readers(L::of(1))
    }
}

impl<L: Shared> Case for Readers<L> {
    #[inline(always)]
    fn call(&self, _worker: u64) -> u64 {
        self.0.read(|one| *one)
    }

    fn added(&self) -> u64 {
        self.0.read(|one| one.wrapping_sub(1))
    }
}

/// A lock that the first worker writes and the others read. Its number is odd: the writer adds 2, and who reads it sees
/// its lowest bit.
pub struct OneWriter<L>(L);

impl<L: Shared> Default for OneWriter<L> {
    fn default() -> Self {
        OneWriter(L::of(1))
    }
}

impl<L: Shared> Case for OneWriter<L> {
    #[inline(always)]
    fn call(&self, worker: u64) -> u64 {
        if worker == 0 {
            self.0.write(|odd| *odd = odd.wrapping_add(2));
            0
        } else {
            self.0.read(|odd| *odd % 2)
        }
    }

    fn added(&self) -> u64 {
        self.0.read(|odd| *odd / 2)
    }
}
