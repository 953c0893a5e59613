//! Which answers of a cache are made, and which are kept.
use crate::cache::{SquareCache, square};
use crate::equal::equal;
use spin_examples::cache::Cache;
use std::alloc::AllocError;
use std::cell::Cell;

// If a caller asked for exclusive access, it would wait for ever for the reader, which never leaves.
#[test]
fn an_answer_that_is_there_takes_no_write(rt: HostRuntime) {
    let cache: SquareCache = Cache::new(rt.alloc());
    let made = Cell::new(0);
    equal(&rt, square(&rt, &cache, 3, &made), Ok(9));
    let reader = cache.read(&rt);
    equal(&rt, square(&rt, &cache, 3, &made), Ok(9));
    equal(&rt, reader.answer(&3).copied(), Some(9));
    equal(&rt, reader.answer(&4).copied(), None);
    equal(&rt, made.get(), 1);
}

/// Why no answer was made.
#[derive(Clone, Copy, Debug, PartialEq, Eq)]
enum Unmade {
    Odd,
    NoMemory,
}

impl From<AllocError> for Unmade {
    fn from(_refused: AllocError) -> Unmade {
        Unmade::NoMemory
    }
}

// An answer that was refused is asked for again by the next caller.
#[test]
fn an_answer_that_is_refused_is_not_kept(rt: HostRuntime) {
    let cache: SquareCache = Cache::new(rt.alloc());
    equal(
        &rt,
        cache.answer(&rt, 3, |_| Err(Unmade::Odd)),
        Err(Unmade::Odd),
    );
    let made = cache.answer(&rt, 3, |key| Ok::<_, Unmade>(key.wrapping_mul(*key)));
    equal(&rt, made, Ok(9));
    equal(&rt, cache.answer(&rt, 3, |_| Err(Unmade::Odd)), Ok(9));
}
