//! The calls of the locks.
use super::Case;
use spin_core::lock::Lock;
use spin_event::Event;
use spin_fair::fair::FairMutex;
use spin_flag::spin::{SpinMutex, SpinMutexGuard};
use spin_rwlock::rwlock::RwLock;
use std::sync;
use std::sync::Wait;

/// A lock with a number, to which each call adds 1.
#[derive(Drop)]
pub struct Adds<L>(pub L);

impl<L: Lock<u64> + Drop> Case for Adds<L> {
    #[inline(never)]
    fn repeat<W: Wait>(&self, rt: &W, _worker: usize, calls: u64) -> u64 {
        for _ in 0..calls {
            self.0.with(rt, |sum| *sum = sum.wrapping_add(1));
        }
        0
    }

    /// Returns the number, or 0 if a call left the lock held.
    fn added(self) -> u64 {
        self.0.try_with(|sum| *sum).unwrap_or(0)
    }
}

/// Like [`Adds`] of a `SpinMutex`, but a waiting call listens, spins for 2,000 hints, and then sleeps until a release.
#[derive(Drop)]
pub struct EventAdds {
    lock: SpinMutex<u64>,
    free: Event,
}

impl EventAdds {
    pub fn new() -> EventAdds {
        EventAdds {
            lock: SpinMutex::new(0),
            free: Event::new(),
        }
    }

    fn lock<W: Wait>(&self, rt: &W) -> SpinMutexGuard<'_, u64> {
        for _ in rt.forever() {
            let heard = self.free.listen();
            if let Some(guard) = self.lock.try_lock() {
                return guard;
            }
            heard.wait(rt);
        }
        unreachable!()
    }
}

impl Case for EventAdds {
    #[inline(never)]
    fn repeat<W: Wait>(&self, rt: &W, _worker: usize, calls: u64) -> u64 {
        for _ in 0..calls {
            let mut sum = match self.lock.try_lock() {
                Some(guard) => guard,
                None => self.lock(rt),
            };
            *sum = sum.wrapping_add(1);
            drop(sum);
            self.free.notify_one();
        }
        0
    }

    fn added(self) -> u64 {
        self.lock.into_inner()
    }
}

/// How many units of work a call does while it holds the lock, and before the next call.
#[derive(Clone, Copy)]
pub struct Work {
    pub inside: u64,
    pub between: u64,
}

/// Like [`Adds`], with work.
#[derive(Drop)]
pub struct Works<L>(pub L, pub Work);

/// Does this many units of work on a number. What is made of another number than 0 is not 0.
fn worked(units: u64, number: u64) -> u64 {
    let mut worked = number;
    for _ in 0..units {
        worked = (worked ^ (worked >> 7)).wrapping_mul(0x9E37_79B9_7F4A_7C15);
    }
    worked
}

impl<L: Lock<u64> + Drop> Case for Works<L> {
    #[inline(never)]
    fn repeat<W: Wait>(&self, rt: &W, _worker: usize, calls: u64) -> u64 {
        let Work { inside, between } = self.1;
        let mut seen = 0u64;
        for _ in 0..calls {
            let held = self.0.with(rt, |sum| -> u64 {
                *sum = sum.wrapping_add(1);
                worked(inside, *sum)
            });
            seen = seen.wrapping_add((worked(between, held) == 0) as u64);
        }
        seen
    }

    /// Returns the number, or 0 if a call left the lock held.
    fn added(self) -> u64 {
        self.0.try_with(|sum| *sum).unwrap_or(0)
    }
}

/// Like [`Adds`] of a `SpinMutex`, but each worker calls by a pass.
#[derive(Drop)]
pub struct PassAdds(pub SpinMutex<u64>);

impl Case for PassAdds {
    #[inline(never)]
    fn repeat<W: Wait>(&self, rt: &W, _worker: usize, calls: u64) -> u64 {
        let mut pass = self.0.pass();
        for _ in 0..calls {
            let mut sum = pass.lock(rt);
            *sum = sum.wrapping_add(1);
            pass = SpinMutex::unlock(sum);
        }
        0
    }

    /// Returns the number, or 0 if a call left the lock held.
    fn added(self) -> u64 {
        self.0.try_with(|sum| *sum).unwrap_or(0)
    }
}

/// A lock that holds 1, which every worker reads.
#[derive(Drop)]
pub struct Readers(pub RwLock<u64>);

impl Case for Readers {
    #[inline(never)]
    fn repeat<W: Wait>(&self, rt: &W, _worker: usize, calls: u64) -> u64 {
        let mut seen = 0u64;
        for _ in 0..calls {
            seen = seen.wrapping_add(*self.0.read(rt));
        }
        seen
    }

    fn added(self) -> u64 {
        self.0.into_inner().wrapping_sub(1)
    }
}

/// Like [`Readers`], but each worker calls by a pass.
#[derive(Drop)]
pub struct PassReaders(pub RwLock<u64>);

impl Case for PassReaders {
    #[inline(never)]
    fn repeat<W: Wait>(&self, rt: &W, _worker: usize, calls: u64) -> u64 {
        let (mut pass, mut seen) = (self.0.pass(), 0u64);
        for _ in 0..calls {
            let guard = pass.read(rt);
            seen = seen.wrapping_add(*guard);
            pass = RwLock::unlock_shared(guard);
        }
        seen
    }

    fn added(self) -> u64 {
        self.0.into_inner().wrapping_sub(1)
    }
}

/// A lock that the first worker writes and the other workers read. Its number is odd: the writer adds 2, and
/// a reader returns the lowest bit, which is 1.
#[derive(Drop)]
pub struct OneWriter(pub RwLock<u64>);

impl Case for OneWriter {
    #[inline(never)]
    fn repeat<W: Wait>(&self, rt: &W, worker: usize, calls: u64) -> u64 {
        let mut seen = 0u64;
        for _ in 0..calls {
            if worker == 0 {
                let mut odd = self.0.write(rt);
                *odd = odd.wrapping_add(2);
            } else {
                seen = seen.wrapping_add(*self.0.read(rt) % 2);
            }
        }
        seen
    }

    fn added(self) -> u64 {
        self.0.into_inner() / 2
    }
}

/// A lock that holds 1. A call acquires it as an upgradable reader, becomes a reader, and reads the 1.
#[derive(Drop)]
pub struct Upgrades(pub RwLock<u64>);

impl Case for Upgrades {
    #[inline(never)]
    fn repeat<W: Wait>(&self, rt: &W, _worker: usize, calls: u64) -> u64 {
        let mut seen = 0u64;
        for _ in 0..calls {
            seen = seen.wrapping_add(*self.0.upgradeable_read(rt).downgrade());
        }
        seen
    }

    fn added(self) -> u64 {
        self.0.into_inner().wrapping_sub(1)
    }
}

/// A lock that a worker acquires as a starver, by one try, and then releases.
#[derive(Drop)]
pub struct Starvers(pub FairMutex<u64>);

impl Case for Starvers {
    #[inline(never)]
    fn repeat<W: Wait>(&self, rt: &W, _worker: usize, calls: u64) -> u64 {
        for _ in 0..calls {
            let Some(starver) = self.0.starve(rt) else {
                return 0;
            };
            if let Ok(mut sum) = starver.try_lock() {
                *sum = sum.wrapping_add(1);
            }
        }
        0
    }

    fn added(self) -> u64 {
        self.0.into_inner()
    }
}

impl Case for sync::Mutex<u64> {
    #[inline(never)]
    fn repeat<W: Wait>(&self, rt: &W, _worker: usize, calls: u64) -> u64 {
        for _ in 0..calls {
            let mut sum = self.lock(rt);
            *sum = sum.wrapping_add(1);
        }
        0
    }

    fn added(self) -> u64 {
        self.into_inner()
    }
}
