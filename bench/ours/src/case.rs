//! What is measured: the calls of a lock.
use std::hint::spin_loop;
use std::sync::Wait;
use std::sync::atomic::{AtomicBool, AtomicU64, Ordering};

mod locks;
mod onces;
mod rounds;

pub use locks::{Adds, EventAdds, OneWriter, PassAdds, PassReaders, Readers, Starvers, Upgrades, Work, Works};
pub use onces::{Alone, FirstCalls, Forces, Gets, LateCalls, complete};
pub use rounds::Rounds;

/// Calls that are repeated, perhaps by several threads at once. A call either adds 1 to what `added` returns, or
/// reads a 1. At a barrier the leader of a group reads a 1 for each thread of the group.
pub trait Case: Drop {
    /// Makes this many calls in the worker with this number, and returns the sum of what they read. This
    /// function is measured, so it has only a loop with the calls and their sum. Each case has its own loop, since
    /// compiled code tests a byte after each call that may wait: a function for one call would add such a test.
    fn repeat<W: Wait>(&self, rt: &W, worker: usize, calls: u64) -> u64;

    /// Returns `true` if the worker has to stop: `told` is set, unless the case decides otherwise.
    fn is_to_stop<W: Wait>(&self, _rt: &W, told: &AtomicBool) -> bool {
        told.load(Ordering::SeqCst)
    }

    /// Returns the sum of what all calls added.
    fn added(self) -> u64;
}

/// A lock with the fewest steps: an exchange that puts 1 in place of 0, and a store of 0.
#[derive(Drop)]
pub struct Floor {
    word: AtomicU64,
}

impl Floor {
    pub fn new() -> Floor {
        Floor {
            word: AtomicU64::new(0),
        }
    }

    fn take(&self) -> bool {
        self.word
            .compare_exchange(0, 1, Ordering::SeqCst, Ordering::SeqCst)
            .is_ok()
    }

    #[inline(never)]
    fn wait<W: Wait>(&self, rt: &W) {
        for _ in rt.forever() {
            if self.word.load(Ordering::SeqCst) != 0 {
                spin_loop();
            } else if self.take() {
                return;
            }
        }
    }
}

impl Case for Floor {
    #[inline(never)]
    fn repeat<W: Wait>(&self, rt: &W, _worker: usize, calls: u64) -> u64 {
        for _ in 0..calls {
            if !self.take() {
                self.wait(rt);
            }
            self.word.store(0, Ordering::SeqCst);
        }
        calls
    }

    fn added(self) -> u64 {
        self.word.into_inner()
    }
}
