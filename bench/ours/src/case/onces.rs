//! The calls of a `Once`, of a `LazyLock` and of a barrier.
use super::Case;
use spin_barrier::barrier::Barrier;
use spin_once::lazylock::LazyLock;
use spin_once::once::Once;
use std::sync::Wait;

/// Returns a `Once` that holds 1.
pub fn complete<W: Wait>(rt: &W) -> Once<u64> {
    let once = Once::new();
    let _seen = once.call_once(rt, || 1);
    once
}

/// A `Once` that holds 1, which each call reads.
#[derive(Drop)]
pub struct Gets(pub Once<u64>);

impl Case for Gets {
    #[inline(never)]
    fn repeat<W: Wait>(&self, _rt: &W, _worker: usize, calls: u64) -> u64 {
        let mut seen = 0u64;
        for _ in 0..calls {
            seen = seen.wrapping_add(self.0.get().copied().unwrap_or(0));
        }
        seen
    }

    fn added(self) -> u64 {
        0
    }
}

/// A `Once` that holds 1. Each call passes a closure, which never runs.
#[derive(Drop)]
pub struct LateCalls(pub Once<u64>);

impl Case for LateCalls {
    #[inline(never)]
    fn repeat<W: Wait>(&self, rt: &W, _worker: usize, calls: u64) -> u64 {
        let mut seen = 0u64;
        for _ in 0..calls {
            seen = seen.wrapping_add(*self.0.call_once(rt, || 2));
        }
        seen
    }

    fn added(self) -> u64 {
        0
    }
}

/// Calls that make a `Once`, give it a value by `call_once`, and drop it.
#[derive(Drop)]
pub struct FirstCalls;

impl Case for FirstCalls {
    // Only one worker makes these calls. The value depends on the worker's number, so that the compiler does
    // not know the value.
    #[inline(never)]
    fn repeat<W: Wait>(&self, rt: &W, worker: usize, calls: u64) -> u64 {
        let mut seen = 0u64;
        for _ in 0..calls {
            let once: Once<u64> = Once::new();
            seen = seen.wrapping_add(*once.call_once(rt, || (worker as u64).wrapping_add(1)));
        }
        seen
    }

    fn added(self) -> u64 {
        0
    }
}

/// A `LazyLock` that holds 1, which each call asks for. Each loop makes a `LazyLock` of its own, since a
/// caller has to know its initialiser.
#[derive(Drop)]
pub struct Forces;

impl Case for Forces {
    #[inline(never)]
    fn repeat<W: Wait>(&self, rt: &W, worker: usize, calls: u64) -> u64 {
        // Only one worker makes these calls. The value depends on the worker's number, so that the compiler
        // does not know the value.
        let lazy: LazyLock<u64, _> = LazyLock::new(|| (worker as u64).wrapping_add(1));
        let mut seen = 0u64;
        for _ in 0..calls {
            seen = seen.wrapping_add(*LazyLock::force(&lazy, rt));
        }
        seen
    }

    fn added(self) -> u64 {
        0
    }
}

/// A barrier for groups of one thread, which leads its group.
#[derive(Drop)]
pub struct Alone(pub Barrier);

impl Case for Alone {
    #[inline(never)]
    fn repeat<W: Wait>(&self, rt: &W, _worker: usize, calls: u64) -> u64 {
        let mut seen = 0u64;
        for _ in 0..calls {
            seen = seen.wrapping_add(self.0.wait(rt).is_leader() as u64);
        }
        seen
    }

    fn added(self) -> u64 {
        0
    }
}
