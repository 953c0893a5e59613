//! What no contract says of the `new` of a seated lock: it makes any number of passes.
use crate::equal::equal;
use spin_seated::lock::{Calls, SeatedLock};
use spin_seated::{mutex, rwlock};
use std::alloc::Global;
use std::process::Abort;

const MANY: usize = 100_000;

// Returns how many passes a new lock has.
fn passes_of<C: Calls>(rt: &impl Abort, alloc: Global) -> usize {
    let (lock, passes) = SeatedLock::<C, Global>::new(alloc, 5, MANY).expect(rt, "memory");
    let number = passes.len();
    drop(passes);
    drop(lock);
    number
}

#[test]
fn a_seated_lock_may_have_many_passes(rt: HostRuntime) {
    let mutex = passes_of::<mutex::Call>(&rt, rt.alloc());
    let rwlock = passes_of::<rwlock::Call>(&rt, rt.alloc());
    equal(&rt, [mutex, rwlock], [MANY; 2]);
}
