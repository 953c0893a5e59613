//! Which call runs its closure, and what the call returns then.
use crate::equal::equal;
use spin_core::relax::Loop;
use spin_once::once::Once;
use std::cell::Cell;
use std::sync::Wait;
use std::thread;

// Calls `call_once` with a closure that counts its runs and gives the value.
fn make<R: Wait>(rt: &R, once: &Once<u64>, runs: &Cell<u32>, value: u64) -> u64 {
    let give = || {
        runs.set(runs.get().wrapping_add(1));
        value
    };
    *once.call_once(rt, give)
}

// Calls `try_call_once` with a closure that counts its runs and fails.
fn fail<R: Wait>(rt: &R, once: &Once<u64>, runs: &Cell<u32>) -> Result<u64, ()> {
    let give = || {
        runs.set(runs.get().wrapping_add(1));
        Err(())
    };
    once.try_call_once(rt, give).copied()
}

#[test]
fn a_closure_that_fails_leaves_the_next_one_its_turn(rt: HostRuntime) {
    let runs = Cell::new(0u32);
    let once: Once<u64> = Once::new();
    let first = (fail(&rt, &once, &runs), once.get().copied());
    let made = [make(&rt, &once, &runs, 7), make(&rt, &once, &runs, 8)];
    let last = fail(&rt, &once, &runs);
    equal(&rt, (first, made), ((Err(()), None), [7; 2]));
    equal(&rt, (last, runs.get()), (Ok(7), 2));
}

#[test]
fn a_copy_of_a_value(rt: HostRuntime) {
    let once: Once<u64> = Once::new();
    let copies = [*once.init_from_ref(&rt, &1), *once.init_from_ref(&rt, &2)];
    equal(&rt, copies, [1; 2]);
}

#[test]
fn looks_before_and_after(rt: HostRuntime) {
    let once: Once<u64, Loop> = Once::new();
    let before = [once.poll(&rt).copied(), once.get().copied()];
    equal(&rt, (before, once.is_completed()), ([None; 2], false));
    let made = *once.call_once(&rt, || 3);
    let after = [once.poll(&rt).copied(), once.get().copied()];
    let waited = *once.wait(&rt);
    equal(&rt, (after, [made, waited]), ([Some(3); 2], [3; 2]));
    let completed = once.is_completed();
    equal(&rt, (completed, once.try_into_inner()), (true, Some(3)));
}

#[test]
fn with_a_value_from_the_start_or_without(rt: HostRuntime) {
    let once: Once<u64> = Once::initialized(5);
    let found = (once.is_completed(), once.get().copied());
    let called = *once.call_once(&rt, || 6);
    let last = once.try_into_inner();
    let once: Once<u64> = Once::from(5);
    let waited = *once.wait(&rt);
    let once: Once<u64> = Once::default();
    equal(&rt, (found, [called, waited]), ((true, Some(5)), [5; 2]));
    equal(&rt, [last, once.try_into_inner()], [Some(5), None]);
    let once: Once = Once::new();
    once.call_once(&rt, || ());
    equal(&rt, once.is_completed(), true);
}

#[test]
fn one_of_two_threads_stores_its_value(rt: HostRuntime) {
    let port: Once<u16> = Once::new();
    let (first, second) = thread::join(&rt, || port.set(&rt, 80), || port.set(&rt, 81));
    equal(&rt, first.is_ok() != second.is_ok(), true);
    let won = if first.is_ok() { 80 } else { 81 };
    equal(&rt, port.get().copied(), Some(won));
    equal(&rt, port.set(&rt, 82), Err(82));
}

#[test]
fn a_value_that_is_there_stays(rt: HostRuntime) {
    let port: Once<u16> = Once::new();
    equal(&rt, port.try_insert(&rt, 80).ok().copied(), Some(80));
    let (there, back) = port.try_insert(&rt, 81).err().expect(&rt, "there is one");
    equal(&rt, (*there, back), (80, 81));
    equal(&rt, *port.call_once(&rt, || 82), 80);
    let made: Result<&u16, ()> = port.get_or_try_init(&rt, || Err(()));
    equal(&rt, made.copied(), Ok(80));
}

#[test]
fn a_taken_value_leaves_an_empty_once(rt: HostRuntime) {
    let mut port: Once<u16> = Once::initialized(80);
    let copy = port.clone().expect(&rt, "memory");
    equal(&rt, (port.take(), port.take()), (Some(80), None));
    equal(
        &rt,
        port.clone().expect(&rt, "memory").is_completed(),
        false,
    );
    equal(&rt, *port.call_once(&rt, || 81), 81);
    equal(&rt, copy.get().copied(), Some(80));
}

// The owner of any `Once` may change its value, even if the value may not be dropped.
fn lends<T>(once: &mut Once<T>) -> Option<&mut T> {
    once.get_mut()
}

#[test]
fn its_owner_changes_the_value(rt: HostRuntime) {
    let mut once: Once<u64> = Once::initialized(5);
    if let Some(value) = lends(&mut once) {
        *value = 6;
    }
    let mut empty: Once<u64> = Once::new();
    let seen = [once.is_completed(), lends(&mut empty).is_none()];
    let values = [once.try_into_inner(), empty.try_into_inner()];
    equal(&rt, (seen, values), ([true; 2], [Some(6), None]));
}

#[test]
fn its_owner_changes_a_value_that_was_made(rt: HostRuntime) {
    let runs = Cell::new(0u32);
    let mut once: Once<u64> = Once::new();
    let before = lends(&mut once).is_none();
    let made = make(&rt, &once, &runs, 7);
    if let Some(value) = lends(&mut once) {
        *value = 8;
    }
    let looked = [once.get().copied(), once.poll(&rt).copied()];
    let found = [made, make(&rt, &once, &runs, 9), *once.wait(&rt)];
    equal(&rt, (before, looked), (true, [Some(8); 2]));
    equal(&rt, (found, once.try_into_inner()), ([7, 8, 8], Some(8)));
}
