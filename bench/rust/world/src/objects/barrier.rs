//! The barrier, at which parties gather in groups.

use crate::event::{Answer, Numbers};
use crate::object::{Hold, Next, Object};
use crate::words::Words;

/// Its words are the count and the generation.
#[derive(Clone, PartialEq, Eq, Hash)]
pub struct Barrier {
    /// How many arrivals make a group. 0 counts as 1.
    size: u64,
    /// How many have arrived of the group that gathers.
    count: u64,
    /// How many groups were filled.
    generation: u64,
}

/// The steps of its calls.
#[derive(Clone, Copy, PartialEq, Eq, Hash)]
pub enum Call {
    /// Arrives.
    Wait,
    /// Waits until the group that gathered in this generation is full.
    Leave(u64),
}

impl Object for Barrier {
    type Call = Call;

    const OWNED: bool = false;

    fn open(words: &mut Words) -> Option<(Self, Option<u64>)> {
        let size = words.number()?;
        Some((
            Barrier {
                size,
                count: 0,
                generation: 0,
            },
            None,
        ))
    }

    fn call(words: &mut Words) -> Option<Call> {
        (words.word()? == b"wait").then_some(Call::Wait)
    }

    fn begins(_call: Call, held: Option<Hold>) -> bool {
        held.is_none()
    }

    fn step(&mut self, call: Call, _held: Option<Hold>, _value: &mut Option<u64>) -> Next<Call> {
        match call {
            Call::Wait if self.count + 1 < self.size => {
                self.count += 1;
                Next::Continue(Call::Leave(self.generation))
            }
            Call::Wait => {
                self.count = 0;
                self.generation = self.generation.wrapping_add(1);
                Next::Answers(Answer::Leader)
            }
            Call::Leave(found) if found == self.generation => Next::Continue(call),
            Call::Leave(_) => Next::Answers(Answer::Follower),
        }
    }

    fn numbers(&self) -> Numbers {
        Numbers(self.count, Some(self.generation))
    }
}
