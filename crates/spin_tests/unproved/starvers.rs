//! Which calls succeed while a thread starves, and which looks of a waiting `lock` count.
use crate::equal::equal;
use crate::mutex::fair::{
    HELD, HELD_AND_STARVED, OPEN, STARVED, enters_in_the_end, has_state, starve_below_cap,
};
use spin_core::relax::Loop;
use spin_fair::fair::{FairMutex, FairRule, STARVATION_SPINS};
use spin_session::table::Runs;
use spin_step::Next;
use spin_step_more::{FairCall, FairPoint};
use std::mem::forget;

#[test]
fn a_starver_comes_before_newcomers(rt: HostRuntime) {
    let lock: FairMutex<u64> = FairMutex::new(42);
    let guard = lock.lock(&rt);
    has_state(&rt, &lock, HELD);
    equal(&rt, lock.try_lock().is_none(), true);
    let starvation = starve_below_cap(&rt, &lock);
    has_state(&rt, &lock, HELD_AND_STARVED);
    drop(guard);
    has_state(&rt, &lock, STARVED);
    equal(&rt, lock.try_lock().is_none(), true);
    let guard = starvation.try_lock().ok().expect(&rt, "open");
    has_state(&rt, &lock, HELD);
    equal(&rt, *guard, 42);
    let starvation = starve_below_cap(&rt, &lock);
    has_state(&rt, &lock, HELD_AND_STARVED);
    drop(guard);
    has_state(&rt, &lock, STARVED);
    drop(starvation);
    has_state(&rt, &lock, OPEN);
}

#[test]
fn a_refused_starver_stays_registered(rt: HostRuntime) {
    let lock: FairMutex<u64, Loop> = FairMutex::new(42);
    let first = starve_below_cap(&rt, &lock);
    let second = starve_below_cap(&rt, &lock);
    has_state(&rt, &lock, STARVED);
    let first = first.try_lock_fair().err().expect(&rt, "two starve");
    has_state(&rt, &lock, STARVED);
    let guard = second.try_lock().ok().expect(&rt, "open");
    has_state(&rt, &lock, HELD_AND_STARVED);
    let first = first.try_lock().err().expect(&rt, "held");
    let first = first.try_lock_fair().err().expect(&rt, "held");
    has_state(&rt, &lock, HELD_AND_STARVED);
    drop(guard);
    enters_in_the_end(&rt, &lock, first);
}

#[test]
fn a_forgotten_starver_keeps_newcomers_away(rt: HostRuntime) {
    let lock: FairMutex<u64> = FairMutex::new(42);
    forget(starve_below_cap(&rt, &lock));
    has_state(&rt, &lock, STARVED);
    equal(&rt, lock.try_lock().is_none(), true);
    equal(&rt, starve_below_cap(&rt, &lock).try_lock().is_ok(), true);
    has_state(&rt, &lock, STARVED);
    equal(&rt, lock.into_inner(), 42);
}

// Returns where a `lock` goes on that finds this word at this point, by the table that the mutex runs.
fn goes_on(at: FairPoint, word: u64) -> FairPoint {
    match <FairRule as Runs<u64>>::next(FairCall::Lock, at, None, word) {
        Next::Continue(to) => to,
        Next::Answers(_, _) => unreachable!(),
    }
}

#[test]
fn it_starves_at_the_look_after_its_patience(rt: HostRuntime) {
    let mut at = FairPoint::Look(0);
    let mut looks: usize = 0;
    while let FairPoint::Look(_) = at {
        at = goes_on(at, 1);
        looks += 1;
    }
    equal(&rt, looks, STARVATION_SPINS + 2);
    equal(&rt, matches!(at, FairPoint::Load), true);
}

#[test]
fn a_look_at_a_free_lock_does_not_count(rt: HostRuntime) {
    for word in [0, 2] {
        let at = goes_on(FairPoint::Look(1), word);
        equal(&rt, matches!(at, FairPoint::Attempt(1)), true);
    }
    let at = goes_on(FairPoint::Attempt(1), 2);
    equal(&rt, matches!(at, FairPoint::Look(1)), true);
}
