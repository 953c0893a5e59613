//! A barrier at which all threads of the case wait for each other.
use super::Case;
use spin_barrier::barrier::Barrier;
use std::sync::Wait;
use std::sync::atomic::{AtomicBool, Ordering};

/// A barrier for one group of all threads of the case. A call is one wait by one thread.
#[derive(Drop)]
pub struct Rounds {
    barrier: Barrier,
    threads: usize,
    stops: AtomicBool,
}

impl Rounds {
    pub fn new(threads: usize) -> Rounds {
        Rounds {
            barrier: Barrier::new(threads),
            threads,
            stops: AtomicBool::new(false),
        }
    }
}

impl Case for Rounds {
    /// The leader of each group counts the waits of all threads of the group.
    #[inline(never)]
    fn repeat<W: Wait>(&self, rt: &W, _worker: usize, calls: u64) -> u64 {
        let mut seen = 0u64;
        for _ in 0..calls {
            if self.barrier.wait(rt).is_leader() {
                seen = seen.wrapping_add(self.threads as u64);
            }
        }
        seen
    }

    /// All threads have to stop together, since a thread in `wait` would wait for threads that have stopped.
    /// So one thread checks for all of them, while the others wait.
    fn is_to_stop<W: Wait>(&self, rt: &W, told: &AtomicBool) -> bool {
        if self.barrier.wait(rt).is_leader() {
            self.stops
                .store(told.load(Ordering::SeqCst), Ordering::SeqCst);
        }
        let _ = self.barrier.wait(rt);
        self.stops.load(Ordering::SeqCst)
    }

    fn added(self) -> u64 {
        0
    }
}
