//! Worked schedules that no text can spell: those of the seats and the dispenser, of several runs, of places, and of
//! objects that no header makes.

use super::alike::{Alike, are_alike};
use super::worlds::holds;
use crate::dispenser::{Dispenser, DispenserAnswer, DispenserCall};
use spin_world::{
    Answer, Event, Fair, FairCall, Flag, FlagCall, Hold, Move, Object, OnceCall, OnceObject,
    Outcome, Place, World,
};
use spin_world_seats::{Seats, SeatsCall};
use std::alloc::Global;
use std::process::Abort;

/// The rows of a schedule: the moves, and an event for each move.
#[derive(Drop)]
struct Rows<'a, C, T, W, A = Answer<T>> {
    moves: &'a [(usize, Move<C, T>)],
    events: &'a [Event<W, T, A>],
}

/// Rows: each has a party, its move, the outcome, and the words after the move.
macro_rules! rows {
    ($($party:literal $action:expr => $outcome:expr, $words:expr;)*) => {
        Rows {
            moves: &[$(($party, $action)),*],
            events: &[$(Event { party: $party, outcome: $outcome, words: $words }),*],
        }
    };
}

/// The answer of a call that began at this place of its schedule, or in an earlier run if no place is given.
macro_rules! answered {
    ($answer:expr) => {
        Outcome::Answered {
            answer: $answer,
            began: None,
        }
    };
    ($answer:expr, $began:expr) => {
        Outcome::Answered {
            answer: $answer,
            began: Some($began),
        }
    };
}

/// Creates a world with this many parties.
pub fn world<O: Object>(rt: &impl Abort, alloc: Global, object: O, parties: usize) -> World<O> {
    World::new(alloc, object, parties).expect(rt, "memory")
}

/// Compares the place of each party of a world, and its value.
fn stands<O, T>(rt: &impl Abort, world: &World<O>, places: &[Place], value: T)
where
    O: Object<Value = T>,
    T: Copy + PartialEq,
{
    for (party, place) in places.iter().enumerate() {
        let is_there = match world.place(party) {
            Some(at) => at.is_like(place),
            None => false,
        };
        holds(rt, "a place", party, is_there);
    }
    assert!(rt; world.place(places.len()).is_none());
    assert!(rt; world.value() == Some(value));
}

/// Plays rows as one schedule. Compares each event, the last words, the place of each party at the end, and the value.
fn plays<O, T, W, A>(
    rt: &impl Abort,
    world: &mut World<O>,
    rows: Rows<'_, O::Call, T, W, A>,
    places: &[Place],
    value: T,
)
where
    O: Object<Value = T, Words = W, Answer = A>,
    T: Copy + PartialEq,
    W: Copy + PartialEq,
    A: Copy + Alike,
{
    let transcript = world.run(rows.moves).expect(rt, "memory");
    assert!(rt; are_alike(transcript.events.as_slice(), rows.events));
    if let Some(event) = rows.events.last() {
        assert!(rt; world.words() == event.words);
    }
    stands(rt, world, places, value);
}

const TWO_SIT: Rows<'static, SeatsCall, (), usize> = rows! {
    0 Move::Begin(SeatsCall::TryEnter) => Outcome::Begun, 0;
    1 Move::Begin(SeatsCall::Enter) => Outcome::Begun, 0;
    0 Move::Step => Outcome::GoingOn, 0;
    1 Move::Step => Outcome::GoingOn, 0;
    0 Move::Step => answered!(Answer::Granted, 0), 1;
    1 Move::Step => Outcome::GoingOn, 1;
    1 Move::Step => answered!(Answer::Granted, 1), 2;
    2 Move::Begin(SeatsCall::TryEnter) => Outcome::Begun, 2;
    2 Move::Step => answered!(Answer::Refused, 7), 2;
    2 Move::Begin(SeatsCall::Enter) => Outcome::Begun, 2;
    2 Move::Step => Outcome::GoingOn, 2;
    0 Move::Begin(SeatsCall::Leave) => Outcome::Begun, 2;
    0 Move::Step => answered!(Answer::Done, 11), 1;
    0 Move::Begin(SeatsCall::Count) => Outcome::Begun, 1;
    0 Move::Step => answered!(Answer::Count(1), 13), 1;
    2 Move::Step => Outcome::GoingOn, 1;
    2 Move::Step => answered!(Answer::Granted, 9), 2;
};

#[test]
fn two_sit_and_a_third_waits(rt: HostRuntime) {
    let sits = Place::Holding(Hold::Read);
    let mut world = world(&rt, rt.alloc(), Seats::new(2), 3);
    plays(&rt, &mut world, TWO_SIT, &[Place::Idle, sits, sits], ());
}

const ONE_SITS: Rows<'static, SeatsCall, (), usize> = rows! {
    0 Move::Begin(SeatsCall::Leave) => Outcome::Skipped, 0;
    0 Move::Begin(SeatsCall::Enter) => Outcome::Begun, 0;
    0 Move::Weak => Outcome::Skipped, 0;
    0 Move::Step => Outcome::GoingOn, 0;
    0 Move::Step => answered!(Answer::Granted, 1), 1;
    0 Move::Begin(SeatsCall::Enter) => Outcome::Skipped, 1;
    0 Move::Begin(SeatsCall::Count) => Outcome::Skipped, 1;
    0 Move::Read => Outcome::Value(Some(())), 1;
    0 Move::Write(()) => Outcome::Skipped, 1;
    0 Move::Leak => Outcome::Leaked, 1;
    1 Move::Begin(SeatsCall::TryEnter) => Outcome::Begun, 1;
    1 Move::Step => answered!(Answer::Refused, 10), 1;
};

#[test]
fn a_seated_party_may_only_leave(rt: HostRuntime) {
    let places: [Place; 2] = [Place::Leaked(Hold::Read), Place::Idle];
    let mut world = world(&rt, rt.alloc(), Seats::new(1), 2);
    plays(&rt, &mut world, ONE_SITS, &places, ());
}

const BEGUN: Rows<'static, FlagCall, u64, bool> = rows! {
    0 Move::Begin(FlagCall::TryLock) => Outcome::Begun, false;
    1 Move::Begin(FlagCall::Lock) => Outcome::Begun, false;
    1 Move::Weak => Outcome::GoingOn, false;
};

const ENDED: Rows<'static, FlagCall, u64, bool> = rows! {
    1 Move::Step => Outcome::GoingOn, false;
    1 Move::Step => answered!(Answer::Granted), true;
    0 Move::Step => answered!(Answer::Refused), true;
    0 Move::Begin(FlagCall::TryLock) => Outcome::Begun, true;
    0 Move::Step => answered!(Answer::Refused, 3), true;
};

#[test]
fn a_call_goes_on_in_the_next_run(rt: HostRuntime) {
    let mut world = world(&rt, rt.alloc(), Flag::new(5), 2);
    plays(&rt, &mut world, rows! {}, &[Place::Idle, Place::Idle], 5);
    plays(&rt, &mut world, BEGUN, &[Place::InCall, Place::InCall], 5);
    let places: [Place; 2] = [Place::Idle, Place::Holding(Hold::Write)];
    plays(&rt, &mut world, ENDED, &places, 5);
}

const TAKEN: Rows<'static, FairCall, u64, usize> = rows! {
    0 Move::Begin(FairCall::TryLock) => Outcome::Begun, 0;
    0 Move::Step => answered!(Answer::Granted, 0), 1;
    1 Move::Begin(FairCall::Lock) => Outcome::Begun, 1;
};

const REGISTERS: Rows<'static, FairCall, u64, usize> = rows! {
    1 Move::Step => Outcome::GoingOn, 3;
};

#[test]
fn a_lock_registers_by_its_1029th_step(rt: HostRuntime) {
    // the exchange, 1026 looks, and the load
    let looks = Rows {
        moves: &[(1, Move::Step); 1028],
        events: &[Event {
            party: 1,
            outcome: Outcome::GoingOn,
            words: 1,
        }; 1028],
    };
    let places: [Place; 2] = [Place::Holding(Hold::Write), Place::InCall];
    let mut world = world(&rt, rt.alloc(), Fair::new(0, 1, 1024), 2);
    plays(&rt, &mut world, TAKEN, &places, 0);
    plays(&rt, &mut world, looks, &places, 0);
    plays(&rt, &mut world, REGISTERS, &places, 0);
}

const LEAKED: Rows<'static, FairCall, u64, usize> = rows! {
    0 Move::Begin(FairCall::Starve) => Outcome::Begun, 0;
    0 Move::Step => Outcome::GoingOn, 0;
    0 Move::Step => answered!(Answer::Granted, 0), 2;
    0 Move::Leak => Outcome::Leaked, 2;
    0 Move::OwnerSet(9) => Outcome::Written, 2;
};

#[test]
fn a_cap_may_be_any_number(rt: HostRuntime) {
    let mut world = world(&rt, rt.alloc(), Fair::new(7, usize::MAX, 0), 1);
    plays(&rt, &mut world, LEAKED, &[Place::Gone], 9);
}

const REPLACED: Rows<'static, OnceCall<u64>, u64, u8> = rows! {
    0 Move::OwnerSet(4) => Outcome::Written, 2;
    0 Move::Begin(OnceCall::Get) => Outcome::Begun, 2;
    0 Move::Step => answered!(Answer::Value(4), 1), 2;
    0 Move::Write(1) => Outcome::Skipped, 2;
};

#[test]
fn the_owner_replaces_a_value_where_there_is_one(rt: HostRuntime) {
    let mut world = world(&rt, rt.alloc(), OnceObject::initialized(9), 1);
    plays(&rt, &mut world, REPLACED, &[Place::Idle], 4);
}

impl Alike for DispenserAnswer {
    fn is_like(&self, other: &Self) -> bool {
        *self == *other
    }
}

const TWO_DRAW: Rows<'static, DispenserCall, (), u64, DispenserAnswer> = rows! {
    0 Move::Begin(DispenserCall::Draw) => Outcome::Begun, 0;
    1 Move::Begin(DispenserCall::Draw) => Outcome::Begun, 0;
    0 Move::Step => Outcome::GoingOn, 0;
    1 Move::Step => Outcome::GoingOn, 0;
    0 Move::Step => answered!(DispenserAnswer::Drawn(0), 0), 1;
    1 Move::Step => Outcome::GoingOn, 1;
    1 Move::Step => answered!(DispenserAnswer::Drawn(1), 1), 2;
    1 Move::Begin(DispenserCall::Draw) => Outcome::Skipped, 2;
    2 Move::Begin(DispenserCall::Draw) => Outcome::Begun, 2;
    2 Move::Step => answered!(DispenserAnswer::SoldOut, 8), 2;
    2 Move::Begin(DispenserCall::Count) => Outcome::Begun, 2;
    2 Move::Step => answered!(DispenserAnswer::Count(2), 10), 2;
};

#[test]
fn two_draw_and_a_third_finds_it_sold_out(rt: HostRuntime) {
    let draws = Place::Holding(Hold::Read);
    let mut world = world(&rt, rt.alloc(), Dispenser::new(2), 3);
    plays(&rt, &mut world, TWO_DRAW, &[draws, draws, Place::Idle], ());
}

const THIS_ONE: Rows<'static, DispenserCall, (), u64, DispenserAnswer> = rows! {
    0 Move::Begin(DispenserCall::DrawThis(1)) => Outcome::Begun, 0;
    0 Move::Step => answered!(DispenserAnswer::NotNext, 0), 0;
    0 Move::Begin(DispenserCall::DrawThis(0)) => Outcome::Begun, 0;
    0 Move::Step => answered!(DispenserAnswer::Drawn(0), 2), 1;
    1 Move::Begin(DispenserCall::DrawThis(0)) => Outcome::Begun, 1;
    1 Move::Step => answered!(DispenserAnswer::NotNext, 4), 1;
};

#[test]
fn one_draws_the_number_that_it_asks_for(rt: HostRuntime) {
    let places: [Place; 2] = [Place::Holding(Hold::Read), Place::Idle];
    let mut world = world(&rt, rt.alloc(), Dispenser::new(2), 2);
    plays(&rt, &mut world, THIS_ONE, &places, ());
}
