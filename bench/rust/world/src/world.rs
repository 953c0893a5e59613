//! The world: an object, and the parties that share it.

use std::collections::TryReserveError;
use std::mem;

use crate::entry::{Entry, Move};
use crate::event::{Answer, End, Event, Outcome};
use crate::object::{Hold, Next, Object, Opening};

/// Where a party stands.
#[derive(Clone, Copy, PartialEq, Eq, Hash)]
enum Seat<C> {
    Idle,
    Holding(Hold),
    /// In a call that began in the line of this number, with what the party held then.
    InCall {
        call: C,
        held: Option<Hold>,
        began: u64,
    },
    /// The party holds for good. Once the owner has moved since, it touches the value no more.
    Leaked {
        hold: Hold,
        owner_moves: u64,
    },
}

impl<C> Seat<C> {
    fn is_shared(&self) -> bool {
        matches!(self, Seat::Holding(_) | Seat::InCall { .. })
    }
}

/// An object, its value, and its parties.
#[derive(Clone, PartialEq, Eq, Hash)]
pub struct World<O: Object> {
    object: O,
    value: Option<u64>,
    seats: Vec<Seat<O::Call>>,
    /// How many parties hold or are in a call, so that the object has no owner.
    sharing: usize,
    owner_moves: u64,
    /// How many moves were played.
    played: u64,
}

impl<O: Object> World<O> {
    /// The world that a header opens. All parties are idle.
    pub fn new(opening: Opening<O>) -> Result<Self, TryReserveError> {
        let Opening {
            object,
            value,
            parties,
        } = opening;
        let mut seats = Vec::new();
        seats.try_reserve_exact(parties)?;
        seats.resize(parties, Seat::Idle);
        Ok(World {
            object,
            value,
            seats,
            sharing: 0,
            owner_moves: 0,
            played: 0,
        })
    }

    /// Plays a move.
    pub fn play(&mut self, entry: Entry<O>) -> Event {
        let Entry { party, action } = entry;
        self.played += 1;
        let outcome = self.act(party, action).unwrap_or(Outcome::Skipped);
        Event {
            line: self.played,
            party,
            outcome,
            numbers: self.object.numbers(),
        }
    }

    /// Makes a move that is no line of a schedule.
    pub fn make(&mut self, party: usize, action: Move<O>) -> Outcome {
        self.act(party as u64, action).unwrap_or(Outcome::Skipped)
    }

    pub fn is_in_call(&self, party: usize) -> bool {
        matches!(self.seats.get(party), Some(Seat::InCall { .. }))
    }

    /// What is left.
    pub fn end(&self) -> End {
        End {
            numbers: self.object.numbers(),
            value: self.value,
        }
    }

    /// Makes a move. `None`: it is not open to the party, or there is no such party.
    fn act(&mut self, party: u64, action: Move<O>) -> Option<Outcome> {
        let party = usize::try_from(party).ok()?;
        let seat = *self.seats.get(party)?;
        match action {
            Move::Begin(call) => self.begin(party, seat, call),
            Move::Step => self.step(party, seat),
            Move::Weak => self.fail(party, seat),
            Move::Read => self
                .touches(seat)?
                .may_read()
                .then_some(Outcome::Value(self.value)),
            Move::Write(value) => self.write(seat, value),
            Move::Leak => self.leak(party, seat),
            Move::OwnerGet => {
                self.own()?;
                Some(Outcome::Value(self.value))
            }
            Move::OwnerSet(value) => self.owner_set(value),
        }
    }

    fn sit(&mut self, party: usize, seat: Seat<O::Call>) {
        self.sharing += usize::from(seat.is_shared());
        let old = mem::replace(&mut self.seats[party], seat);
        self.sharing -= usize::from(old.is_shared());
    }

    fn begin(&mut self, party: usize, seat: Seat<O::Call>, call: O::Call) -> Option<Outcome> {
        let held = match seat {
            Seat::Idle => None,
            Seat::Holding(hold) => Some(hold),
            Seat::InCall { .. } | Seat::Leaked { .. } => return None,
        };
        if !O::begins(call, held) {
            return None;
        }
        self.sit(
            party,
            Seat::InCall {
                call,
                held,
                began: self.played,
            },
        );
        Some(Outcome::Begun)
    }

    fn step(&mut self, party: usize, seat: Seat<O::Call>) -> Option<Outcome> {
        let Seat::InCall { call, held, began } = seat else {
            return None;
        };
        let next = self.object.step(call, held, &mut self.value);
        Some(self.go_on(party, held, began, next))
    }

    fn fail(&mut self, party: usize, seat: Seat<O::Call>) -> Option<Outcome> {
        let Seat::InCall { call, held, began } = seat else {
            return None;
        };
        let next = O::fail(call)?;
        Some(self.go_on(party, held, began, next))
    }

    fn go_on(
        &mut self,
        party: usize,
        held: Option<Hold>,
        began: u64,
        next: Next<O::Call>,
    ) -> Outcome {
        let (answer, holds) = match next {
            Next::Continue(call) => {
                self.seats[party] = Seat::InCall { call, held, began };
                return Outcome::GoingOn;
            }
            Next::Answers(answer) => (answer, held),
            Next::Grants(hold) => (Answer::Granted, Some(hold)),
            Next::Leaves(holds) => (Answer::Done, holds),
        };
        self.sit(party, holds.map_or(Seat::Idle, Seat::Holding));
        Outcome::Answered(answer, began)
    }

    /// What a party holds that may touch the value by it.
    fn touches(&self, seat: Seat<O::Call>) -> Option<Hold> {
        match seat {
            Seat::Holding(hold) => Some(hold),
            Seat::Leaked { hold, owner_moves } if owner_moves == self.owner_moves => Some(hold),
            _ => None,
        }
    }

    fn write(&mut self, seat: Seat<O::Call>, value: u64) -> Option<Outcome> {
        if !self.touches(seat)?.may_write() {
            return None;
        }
        self.value = Some(value);
        Some(Outcome::Written)
    }

    fn leak(&mut self, party: usize, seat: Seat<O::Call>) -> Option<Outcome> {
        let Seat::Holding(hold) = seat else {
            return None;
        };
        self.sit(
            party,
            Seat::Leaked {
                hold,
                owner_moves: self.owner_moves,
            },
        );
        Some(Outcome::Leaked)
    }

    /// Begins a move of the owner, if there is one now.
    fn own(&mut self) -> Option<()> {
        if !O::OWNED || self.sharing > 0 {
            return None;
        }
        self.owner_moves += 1;
        Some(())
    }

    fn owner_set(&mut self, value: u64) -> Option<Outcome> {
        self.own()?;
        if self.value.is_none() {
            return Some(Outcome::Value(None));
        }
        self.value = Some(value);
        Some(Outcome::Written)
    }
}
