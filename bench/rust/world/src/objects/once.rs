//! The cell that one closure fills.

use crate::event::{Answer, Numbers};
use crate::object::{Hold, Next, Object};
use crate::words::Words;

/// How far the cell has come. Its value lies in the world.
#[derive(Clone, Copy, PartialEq, Eq, Hash)]
pub enum Once {
    Empty,
    Running,
    Complete,
}

/// What a closure comes to.
#[derive(Clone, Copy, PartialEq, Eq, Hash)]
pub enum Closure {
    Gives(u64),
    Fails,
}

/// The steps of its calls.
#[derive(Clone, Copy, PartialEq, Eq, Hash)]
pub enum Call {
    /// Looks for a value before it runs its closure.
    Fill(Closure),
    /// Begins to run its closure.
    Begin(Closure),
    /// Waits for the closure that runs.
    Await(Closure),
    /// Ends its closure.
    Run(Closure),
    Wait,
    Poll,
    Get,
    IsCompleted,
}

impl Once {
    /// Ends the closure that runs.
    fn end(&mut self, closure: Closure, value: &mut Option<u64>) -> Next<Call> {
        match closure {
            Closure::Gives(made) => {
                *self = Once::Complete;
                *value = Some(made);
                Next::Answers(Answer::Value(made))
            }
            Closure::Fails => {
                *self = Once::Empty;
                Next::Answers(Answer::Failed)
            }
        }
    }
}

impl Object for Once {
    type Call = Call;

    fn open(_words: &mut Words) -> Option<(Self, Option<u64>)> {
        Some((Once::Empty, None))
    }

    fn call(words: &mut Words) -> Option<Call> {
        match words.word()? {
            b"call_once" | b"init_from_ref" => Some(Call::Fill(Closure::Gives(words.number()?))),
            b"try_call_once" => match words.word()? {
                b"ok" => Some(Call::Fill(Closure::Gives(words.number()?))),
                b"err" => Some(Call::Fill(Closure::Fails)),
                _ => None,
            },
            b"wait" => Some(Call::Wait),
            b"poll" => Some(Call::Poll),
            b"get" => Some(Call::Get),
            b"is_completed" => Some(Call::IsCompleted),
            _ => None,
        }
    }

    fn begins(_call: Call, held: Option<Hold>) -> bool {
        held.is_none()
    }

    fn step(&mut self, call: Call, _held: Option<Hold>, value: &mut Option<u64>) -> Next<Call> {
        match (call, *self, *value) {
            (Call::IsCompleted, stage, _) => Next::Answers(Answer::Is(stage == Once::Complete)),
            (Call::Run(closure), ..) => self.end(closure, value),
            (_, Once::Complete, Some(value)) => Next::Answers(Answer::Value(value)),
            (Call::Fill(closure), ..) => Next::Continue(Call::Begin(closure)),
            (Call::Begin(closure), Once::Empty, _) => {
                *self = Once::Running;
                Next::Continue(Call::Run(closure))
            }
            (Call::Begin(closure), ..) => Next::Continue(Call::Await(closure)),
            (Call::Await(closure), Once::Empty, _) => Next::Continue(Call::Begin(closure)),
            (Call::Get, ..) | (Call::Poll, Once::Empty, _) => Next::Answers(Answer::NoValue),
            (Call::Await(_) | Call::Wait | Call::Poll, ..) => Next::Continue(call),
        }
    }

    fn numbers(&self) -> Numbers {
        Numbers(*self as u64, None)
    }
}
