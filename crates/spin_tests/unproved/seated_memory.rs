//! What no contract says of `new`: memory suffices, and if it is refused nothing stays allocated.
use crate::equal::equal;
use bumpalo::Bump;
use spin_seated::lock::{Calls, SeatedLock};
use spin_seated::{mutex, rwlock};
use std::alloc::Global;
use std::process::Abort;

// The bytes of a lock's two words. Its passes are allocated after them.
const WORDS: u32 = 16;

// Returns whether a lock for two passes fits into this many bytes.
fn opens_in<C: Calls>(arena: &Bump, left: usize) -> bool {
    arena.set_allocation_limit(Some(0));
    let filled = arena.chunk_capacity().saturating_sub(left);
    let Ok(filled) = Vec::<u8, &Bump>::with_capacity(arena, filled) else {
        return false;
    };
    let opened = SeatedLock::<C, &Bump>::new(arena, 5, 2);
    drop(filled);
    match opened {
        Ok((lock, passes)) => {
            drop(passes);
            drop(lock);
            true
        }
        Err(_) => false,
    }
}

// Returns whether each allocation of a lock fails if too little memory is left. Afterwards everything has to be free
// again, also if the lock was made and dropped. An arena with a block in use cannot be reset.
fn gives_all_back<C: Calls>(rt: &impl Abort, alloc: Global) -> bool {
    let mut refused = 0u32;
    for left in 0..256usize {
        let mut arena = Bump::try_with_capacity(alloc, 512).expect(rt, "memory");
        if !opens_in::<C>(&arena, left) {
            refused = refused.saturating_add(1);
        }
        if arena.reset().is_err() {
            return false;
        }
    }
    WORDS < refused && refused < 256
}

#[test]
fn a_refused_lock_gives_all_back(rt: HostRuntime) {
    equal(&rt, gives_all_back::<mutex::Call>(&rt, rt.alloc()), true);
    equal(&rt, gives_all_back::<rwlock::Call>(&rt, rt.alloc()), true);
}
