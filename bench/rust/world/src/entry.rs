//! A line of a schedule: a party and its move.

use crate::object::Object;
use crate::words::Words;

/// What a party may do next.
pub enum Move<O: Object> {
    Begin(O::Call),
    /// Takes the next step of its call.
    Step,
    /// Takes that step if it is a weak exchange, which fails without a cause.
    Weak,
    Read,
    Write(u64),
    Leak,
    OwnerGet,
    OwnerSet(u64),
}

/// A party and its move.
pub struct Entry<O: Object> {
    pub party: u64,
    pub action: Move<O>,
}

impl<O: Object> Clone for Move<O> {
    fn clone(&self) -> Self {
        *self
    }
}

impl<O: Object> Copy for Move<O> {}

impl<O: Object> Move<O> {
    fn read(words: &mut Words) -> Option<Self> {
        match words.word()? {
            b"begin" => Some(Move::Begin(O::call(words)?)),
            b"step" => Some(Move::Step),
            b"weak" => Some(Move::Weak),
            b"read" => Some(Move::Read),
            b"write" => Some(Move::Write(words.number()?)),
            b"leak" => Some(Move::Leak),
            b"owner" => match words.word()? {
                b"get" => Some(Move::OwnerGet),
                b"set" => Some(Move::OwnerSet(words.number()?)),
                _ => None,
            },
            _ => None,
        }
    }
}

impl<O: Object> Entry<O> {
    /// Reads a line.
    pub fn read(line: &[u8]) -> Option<Self> {
        let mut words = Words::of(line);
        let party = words.number()?;
        let action = Move::read(&mut words)?;
        words.end()?;
        Some(Entry { party, action })
    }
}
