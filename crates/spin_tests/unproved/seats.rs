//! Which calls of the seats succeed, and what the count tells.
use crate::equal::equal;
use spin_seats::seats::Seats;

#[test]
fn as_many_sit_as_there_are_seats(rt: HostRuntime) {
    let seats: Seats<2> = Seats::new();
    let unused = seats.count();
    let first = seats.try_enter(&rt).expect(&rt, "two are free");
    let second = seats.enter(&rt);
    let (full, refused) = (seats.count(), seats.try_enter(&rt).is_none());
    drop(first);
    let one_left = seats.count();
    let third = seats.try_enter(&rt).expect(&rt, "one is free");
    let refused_again = seats.try_enter(&rt).is_none();
    drop(second);
    drop(third);
    equal(&rt, [unused, full, one_left, seats.count()], [0, 2, 1, 0]);
    let none: Seats<0> = Seats::default();
    let refused = [refused, refused_again, none.try_enter(&rt).is_none()];
    equal(&rt, refused, [true; 3]);
}

#[test]
fn a_hundred_sit_at_once(rt: HostRuntime) {
    let seats: Seats<100> = Seats::new();
    let mut guards = Vec::new(rt.alloc());
    for _ in 0..100u32 {
        let guard = seats.try_enter(&rt).expect(&rt, "one is free");
        equal(&rt, guards.push(guard).is_ok(), true);
    }
    equal(
        &rt,
        (seats.count(), seats.try_enter(&rt).is_none()),
        (100, true),
    );
    drop(guards);
    equal(&rt, seats.count(), 0);
}

#[test]
fn a_weak_try_takes_a_free_seat(rt: HostRuntime) {
    let seats: Seats<1> = Seats::new();
    let guard = seats.try_enter_weak().expect(&rt, "one is free");
    let refused = seats.try_enter_weak().is_none();
    let pass = seats.pass().try_enter_weak().err();
    equal(&rt, (refused, pass.is_some()), (true, true));
    drop(guard);
    let granted = pass.expect(&rt, "all were taken").try_enter_weak();
    equal(&rt, (granted.is_ok(), seats.count()), (true, 1));
}
