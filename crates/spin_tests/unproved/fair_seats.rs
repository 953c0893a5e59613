//! Which calls of the fair seats succeed, what the count tells, in which order parties sit, and threads that make progress.
use crate::equal::equal;
use crate::parts::{Crew, in_threads};
use spin_core::relax::Yield;
use spin_explore::{Course, Entry, Found, Lock, Programs, explore};
use spin_fair_seats::seats::FairSeats;
use spin_world::{Answer, Move, Outcome, World};
use spin_world_seats::{FairSeats as Model, FairSeatsCall};
use std::alloc::Global;
use std::process::Abort;
use std::sync::Wait;
use std::sync::atomic::{AtomicU64, Ordering};

#[test]
fn as_many_sit_as_there_are_seats(rt: HostRuntime) {
    let seats: FairSeats<2> = FairSeats::new();
    let unused = seats.count();
    let first = seats.try_enter(&rt).expect(&rt, "two are free");
    let second = seats.enter(&rt);
    let (full, refused) = (seats.count(), seats.try_enter(&rt).is_none());
    drop(first);
    let one_left = seats.count();
    let pass = seats
        .pass()
        .try_enter(&rt)
        .ok()
        .expect(&rt, "one is free")
        .leave();
    drop(second);
    equal(&rt, [unused, full, one_left, seats.count()], [0, 2, 1, 0]);
    let again = pass.enter(&rt).ok().expect(&rt, "a ticket is left");
    let other = seats.enter(&rt);
    let refused = [refused, seats.try_enter(&rt).is_none()];
    drop(again);
    drop(other);
    let none: FairSeats<0> = FairSeats::default();
    equal(
        &rt,
        (refused, none.try_enter(&rt).is_none()),
        ([true; 2], true),
    );
}

/// Threads that take a seat again and again, and count how many are taken.
#[derive(Drop)]
struct Visitors {
    seats: FairSeats<2, Yield>,
    inside: AtomicU64,
}

impl Crew for Visitors {
    type Answer = ();

    fn act<R: Abort + Wait>(&self, rt: &R, _index: usize) {
        for _turn in 0..500 {
            let guard = self.seats.enter(rt);
            equal(rt, self.inside.fetch_add(1, Ordering::SeqCst) < 2, true);
            self.inside.fetch_sub(1, Ordering::SeqCst);
            drop(guard);
        }
    }
}

#[test]
fn five_visit_two_seats(rt: HostRuntime) {
    let visitors = Visitors {
        seats: FairSeats::new(),
        inside: AtomicU64::new(0),
    };
    drop(in_threads(&rt, rt.alloc(), &visitors, 5));
    equal(&rt, visitors.seats.count(), 0);
}

fn is_granted(outcome: Outcome<Answer<()>, ()>) -> bool {
    matches!(
        outcome,
        Outcome::Answered {
            answer: Answer::Granted,
            ..
        }
    )
}

#[test]
fn a_party_waits_for_those_before_it(rt: HostRuntime) {
    let mut world = World::new(rt.alloc(), Model::new(1), 2).expect(&rt, "memory");
    for party in [1, 0] {
        world.act(party, Move::Begin(FairSeatsCall::Enter));
        world.act(party, Move::Step);
        world.act(party, Move::Step);
    }
    let early = is_granted(world.act(0, Move::Step));
    let first = is_granted(world.act(1, Move::Step));
    world.act(1, Move::Begin(FairSeatsCall::Leave));
    world.act(1, Move::Step);
    let second = is_granted(world.act(0, Move::Step));
    equal(&rt, [early, first, second], [false, true, true]);
    equal(&rt, (world.words().next, world.words().given), (2, 1));
}

/// Returns how many lines of a course were granted.
fn grants_in<L: Lock>(course: &Course<L>) -> usize {
    let mut granted = 0usize;
    for came in course.got() {
        if let Some(
            Outcome::Answered {
                answer: Answer::Granted,
                ..
            },
        ) = *came
        {
            granted = granted.saturating_add(1);
        }
    }
    granted
}

/// Finds all that comes of three parties that make these calls.
fn found<R: Abort>(
    rt: &R,
    alloc: Global,
    seats: usize,
    calls: [&[FairSeatsCall]; 3],
) -> Found<World<Model>> {
    let mut lines = Vec::new(alloc);
    for party in 0..3usize {
        for call in calls[party] {
            let action = Move::Begin(*call);
            let lock = 0;
            lines
                .push(Entry {
                    party,
                    lock,
                    action,
                })
                .expect(rt, "memory");
        }
    }
    let mut locks = Vec::new(alloc);
    locks
        .push(World::new(alloc, Model::new(seats), 3).expect(rt, "memory"))
        .expect(rt, "memory");
    let programs = Programs {
        alloc,
        lines,
        parties: 3,
    };
    explore(programs, locks, 50_000).expect(rt, "memory")
}

#[test]
fn no_third_sits_on_two_seats(rt: HostRuntime) {
    let enter = [FairSeatsCall::Enter];
    let found = found(
        &rt,
        rt.alloc(),
        2,
        [&[FairSeatsCall::TryEnter], &enter, &enter],
    );
    let mut most = 0;
    for place in 0..found.courses.len() {
        most = most.max(grants_in(&found.courses[place]));
    }
    equal(&rt, (most, found.stuck.is_empty()), (2, false));
}

#[test]
fn all_sit_where_all_leave(rt: HostRuntime) {
    let visit = [FairSeatsCall::Enter, FairSeatsCall::Leave];
    let found = found(&rt, rt.alloc(), 1, [&visit, &visit, &visit]);
    for place in 0..found.ends.len() {
        let end = found.ends[place];
        equal(&rt, grants_in(&found.courses[end]), 3);
    }
    equal(
        &rt,
        (found.stuck.is_empty(), found.ends.is_empty()),
        (true, false),
    );
}
