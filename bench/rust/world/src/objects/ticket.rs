//! The lock of two numbers, which parties enter in the order of their tickets.

use crate::event::{Answer, Numbers};
use crate::object::{Hold, Next, Object};
use crate::words::Words;

/// The number of the next ticket, and the one that is served. The largest number is no ticket's.
#[derive(Clone, PartialEq, Eq, Hash)]
pub struct Ticket {
    next: u64,
    serving: u64,
}

/// The steps of its calls.
#[derive(Clone, Copy, PartialEq, Eq, Hash)]
pub enum Call {
    /// Loads the next number.
    Lock,
    /// Takes the ticket of this number.
    Take(u64),
    /// Waits until this ticket is served.
    Await(u64),
    /// Loads the next number.
    Try,
    /// Looks whether this number is served.
    TryLook(u64),
    /// Takes the ticket of this number.
    TryTake(u64),
    /// Loads the number that is served.
    IsLocked,
    /// Looks whether this number is next too.
    IsNext(u64),
    Release,
}

impl Ticket {
    /// Takes the ticket of this number if it is the next one.
    fn take(&mut self, number: u64) -> bool {
        let is_next = self.next == number;
        if is_next {
            self.next += 1;
        }
        is_next
    }

    /// How a `lock` without a ticket goes on.
    fn seek(&self) -> Next<Call> {
        Next::Continue(match self.next {
            u64::MAX => Call::Lock,
            next => Call::Take(next),
        })
    }
}

impl Object for Ticket {
    type Call = Call;

    fn open(words: &mut Words) -> Option<(Self, Option<u64>)> {
        let value = words.number()?;
        let first = words.number()?;
        Some((
            Ticket {
                next: first,
                serving: first,
            },
            Some(value),
        ))
    }

    fn call(words: &mut Words) -> Option<Call> {
        match words.word()? {
            b"lock" => Some(Call::Lock),
            b"try_lock" => Some(Call::Try),
            b"is_locked" => Some(Call::IsLocked),
            b"release" => Some(Call::Release),
            _ => None,
        }
    }

    fn begins(call: Call, held: Option<Hold>) -> bool {
        matches!(call, Call::Release) == held.is_some()
    }

    fn step(&mut self, call: Call, _held: Option<Hold>, _value: &mut Option<u64>) -> Next<Call> {
        match call {
            Call::Lock => self.seek(),
            Call::Take(number) if self.take(number) => Next::Continue(Call::Await(number)),
            Call::Take(_) => self.seek(),
            Call::Await(ticket) if ticket == self.serving => Next::Grants(Hold::Write),
            Call::Await(_) => Next::Continue(call),
            Call::Try => Next::Continue(Call::TryLook(self.next)),
            Call::TryLook(next) if next == self.serving && next < u64::MAX => {
                Next::Continue(Call::TryTake(next))
            }
            Call::TryTake(number) if self.take(number) => Next::Grants(Hold::Write),
            Call::TryLook(_) | Call::TryTake(_) => Next::Answers(Answer::Refused),
            Call::IsLocked => Next::Continue(Call::IsNext(self.serving)),
            Call::IsNext(serving) => Next::Answers(Answer::Is(self.next != serving)),
            // The party that holds the lock has the ticket that is served.
            Call::Release => {
                self.serving += 1;
                Next::Leaves(None)
            }
        }
    }

    fn numbers(&self) -> Numbers {
        Numbers(self.next, Some(self.serving))
    }
}
