//! What an object of a world is, and the header that names it.

use crate::event::{Answer, Numbers};
use crate::objects::{Barrier, Fair, Flag, Once, Rw, Ticket};
use crate::program::Fault;
use crate::words::Words;
use std::hash::Hash;

/// The most parties that a header may name.
const MAX_PARTIES: u64 = 1000;

/// What a party holds.
#[derive(Clone, Copy, PartialEq, Eq, Hash)]
pub enum Hold {
    Read,
    Upgradable,
    Write,
    Starver,
}

impl Hold {
    pub fn may_read(self) -> bool {
        !matches!(self, Hold::Starver)
    }

    pub fn may_write(self) -> bool {
        matches!(self, Hold::Write)
    }
}

/// How a call goes on after a step.
pub enum Next<C> {
    /// By this step.
    Continue(C),
    /// It is answered, and its party holds what it held before.
    Answers(Answer),
    /// It is granted this.
    Grants(Hold),
    /// It is done, and this is left to its party.
    Leaves(Option<Hold>),
}

/// The words of a lock, and the steps of its calls.
pub trait Object: Clone + Eq + Hash {
    /// The next step of a call, with what its party found so far. A call is spelled as its first step.
    type Call: Copy + Eq + Hash;

    /// Whether an owner may look at the value and replace it.
    const OWNED: bool = true;

    /// Reads the numbers of a header between the name and the parties: the object, and its value.
    fn open(words: &mut Words) -> Option<(Self, Option<u64>)>;

    /// Reads a call.
    fn call(words: &mut Words) -> Option<Self::Call>;

    /// Whether a party that holds this may begin the call.
    fn begins(call: Self::Call, held: Option<Hold>) -> bool;

    /// Makes the step of a party that holds this.
    fn step(
        &mut self,
        call: Self::Call,
        held: Option<Hold>,
        value: &mut Option<u64>,
    ) -> Next<Self::Call>;

    /// How the call goes on if its step is a weak exchange, which fails without a cause. `None`: it is none.
    fn fail(_call: Self::Call) -> Option<Next<Self::Call>> {
        None
    }

    /// The words.
    fn numbers(&self) -> Numbers;
}

/// What a header spells.
pub struct Opening<O> {
    pub object: O,
    pub value: Option<u64>,
    pub parties: usize,
}

impl<O: Object> Opening<O> {
    /// Reads what stands behind the object's name.
    fn read(mut words: Words) -> Result<Self, Fault> {
        let mut read = || {
            let (object, value) = O::open(&mut words)?;
            let parties = words.number_in(1..=MAX_PARTIES)? as usize;
            words.end()?;
            Some(Opening {
                object,
                value,
                parties,
            })
        };
        read().ok_or(Fault::BadLine(1))
    }
}

/// What a program does with the object that a header names.
pub trait Player {
    type Played;

    fn play<O: Object>(self, opening: Opening<O>) -> Result<Self::Played, Fault>;
}

/// Reads a header, and plays what it spells.
pub fn play<P: Player>(header: &[u8], player: P) -> Result<P::Played, Fault> {
    let mut words = Words::of(header);
    match words.word() {
        Some(b"flag") => player.play(Opening::<Flag>::read(words)?),
        Some(b"ticket") => player.play(Opening::<Ticket>::read(words)?),
        Some(b"fair") => player.play(Opening::<Fair>::read(words)?),
        Some(b"rw") => player.play(Opening::<Rw>::read(words)?),
        Some(b"once") => player.play(Opening::<Once>::read(words)?),
        Some(b"barrier") => player.play(Opening::<Barrier>::read(words)?),
        _ => Err(Fault::BadLine(1)),
    }
}
