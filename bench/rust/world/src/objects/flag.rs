//! The lock of one flag.

use std::mem;

use crate::event::{Answer, Numbers};
use crate::object::{Hold, Next, Object};
use crate::words::Words;

/// Its flag is set while a party holds the lock.
#[derive(Clone, PartialEq, Eq, Hash)]
pub struct Flag {
    is_set: bool,
}

/// The steps of its calls.
#[derive(Clone, Copy, PartialEq, Eq, Hash)]
pub enum Call {
    Lock,
    /// Waits until the flag is clear, to try again.
    Await,
    Try {
        is_weak: bool,
    },
    IsLocked,
    Release,
}

impl Flag {
    /// Sets the flag if it is clear.
    fn take(&mut self) -> bool {
        !mem::replace(&mut self.is_set, true)
    }
}

impl Object for Flag {
    type Call = Call;

    fn open(words: &mut Words) -> Option<(Self, Option<u64>)> {
        let value = words.number()?;
        Some((Flag { is_set: false }, Some(value)))
    }

    fn call(words: &mut Words) -> Option<Call> {
        match words.word()? {
            b"lock" => Some(Call::Lock),
            b"try_lock" => Some(Call::Try { is_weak: false }),
            b"try_lock_weak" => Some(Call::Try { is_weak: true }),
            b"is_locked" => Some(Call::IsLocked),
            b"release" => Some(Call::Release),
            _ => None,
        }
    }

    fn begins(call: Call, held: Option<Hold>) -> bool {
        matches!(call, Call::Release) == held.is_some()
    }

    fn step(&mut self, call: Call, _held: Option<Hold>, _value: &mut Option<u64>) -> Next<Call> {
        match call {
            Call::Lock | Call::Try { .. } if self.take() => Next::Grants(Hold::Write),
            Call::Lock => Next::Continue(Call::Await),
            Call::Await if self.is_set => Next::Continue(Call::Await),
            Call::Await => Next::Continue(Call::Lock),
            Call::Try { .. } => Next::Answers(Answer::Refused),
            Call::IsLocked => Next::Answers(Answer::Is(self.is_set)),
            Call::Release => {
                self.is_set = false;
                Next::Leaves(None)
            }
        }
    }

    fn fail(call: Call) -> Option<Next<Call>> {
        match call {
            Call::Lock => Some(Next::Continue(Call::Await)),
            Call::Try { is_weak: true } => Some(Next::Answers(Answer::Refused)),
            _ => None,
        }
    }

    fn numbers(&self) -> Numbers {
        Numbers(self.is_set.into(), None)
    }
}
