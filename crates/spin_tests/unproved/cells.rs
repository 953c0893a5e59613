//! What steps on a cell find. The cell's rule allows any words and any entries.
ghost use Rattle.spin_core.specs.Cell.{off, alone, no_fact};

use crate::equal::equal;
use spin_core::cell::{Cell, Play, Rule};
use spin_core::trace::{Trace, Watch};
use std::mem::size_of;

/// A party that never uses the value.
#[derive(Clone, Copy)]
enum Bystander {
    Stands,
}

/// A rule that allows any words and any entries.
struct AnyWords;

impl Rule<u64, Bystander> for AnyWords {
    type Key = ();

    type Second = Trace<(), u64>;

    ghost holds = { λ _ _ _ _. Unit {0} };

    ghost ways = { λ _. (alone, (λ _. off), no_fact) };

    ghost lent = { λ key. key };
}

/// A step of which nothing is told.
struct Any;

impl Play<(), Bystander, ()> for Any {
    ghost told = { λ _ _ _ _ _ _ _ _. Unit {0} };
}

/// A cell of two words.
type Words = Cell<u64, Bystander, AnyWords>;

// Creates a cell with the value 5 and the words 1 and 2.
fn words() -> Words {
    Cell::new(5, 1, Trace::new(2), &())
}

#[test]
fn a_trace_has_no_byte(rt: HostRuntime) {
    let sizes = [
        size_of::<Trace<()>>(),
        size_of::<Trace<(), u64>>(),
        size_of::<Watch<()>>(),
        size_of::<Words>(),
    ];
    equal(&rt, sizes, [0, 8, 0, 24]);
}

#[test]
fn steps_find_the_first_word(rt: HostRuntime) {
    let cell = words();
    let (loaded, party, seen) = cell.enter().load::<Any>(Watch::nothing());
    let (exchanged, party, seen) = party.exchange::<Any>(1, 6, seen);
    let (missed, party, seen) = party.exchange::<Any>(1, 7, seen);
    let (party, seen) = party.store::<Any>(8, seen);
    let (added, party, seen) = party.add::<Any>(u64::MAX, seen);
    let (subtracted, party, seen) = party.subtract::<Any>(3, seen);
    let (set, party, seen) = party.set_bits::<Any>(3, seen);
    let (last, party, seen) = party.load::<Any>(seen);
    let (second, party, _) = party.load_second::<Any>(seen);
    party.leave();
    let found = [
        loaded, exchanged, missed, added, subtracted, set, last, second,
    ];
    equal(&rt, found, [1, 1, 6, 8, 7, 4, 7, 2]);
}

#[test]
fn steps_find_the_second_word(rt: HostRuntime) {
    let cell = words();
    let (before, party, seen) = cell.enter().load_second::<Any>(Watch::nothing());
    let (party, seen) = party.store_second::<Any>(8, seen);
    let (after, party, seen) = party.load_second::<Any>(seen);
    let (first, party, _) = party.load::<Any>(seen);
    party.leave();
    equal(&rt, [before, after, first], [2, 8, 1]);
}

#[test]
fn an_owner_finds_what_it_wrote(rt: HostRuntime) {
    let mut cell = words();
    equal(&rt, *cell.get_mut(), 5);
    *cell.get_mut() = 7;
    let (party, _) = cell.enter().store::<Any>(3, Watch::nothing());
    party.leave();
    equal(&rt, cell.into_inner(), 7);
}
