//! What comes of a move, and its line.

use std::fmt::{self, Display, Formatter};

/// What a call is answered.
#[derive(Clone, Copy, PartialEq, Eq, Hash)]
pub enum Answer {
    Granted,
    Refused,
    /// Refused while a party holds the lock and none starves.
    Locked,
    /// Refused while a party starves.
    Starved,
    Done,
    Is(bool),
    Count(u64),
    Value(u64),
    NoValue,
    /// The closure of the call failed.
    Failed,
    Leader,
    Follower,
}

/// What comes of a move.
#[derive(Clone, Copy, PartialEq, Eq, Hash)]
pub enum Outcome {
    Skipped,
    Begun,
    GoingOn,
    /// The call that began in the line of this number is answered.
    Answered(Answer, u64),
    Value(Option<u64>),
    Written,
    Leaked,
}

/// The words of a lock as numbers: one or two.
#[derive(Clone, Copy)]
pub struct Numbers(pub u64, pub Option<u64>);

/// A move that was played.
pub struct Event {
    /// Its line in the output, counted from 1.
    pub line: u64,
    pub party: u64,
    pub outcome: Outcome,
    /// The lock's words after it.
    pub numbers: Numbers,
}

/// What is left when all moves were played.
pub struct End {
    pub numbers: Numbers,
    pub value: Option<u64>,
}

impl Display for Answer {
    fn fmt(&self, f: &mut Formatter<'_>) -> fmt::Result {
        match self {
            Answer::Granted => f.write_str("granted"),
            Answer::Refused => f.write_str("refused"),
            Answer::Locked => f.write_str("locked"),
            Answer::Starved => f.write_str("starved"),
            Answer::Done => f.write_str("done"),
            Answer::Is(true) => f.write_str("true"),
            Answer::Is(false) => f.write_str("false"),
            Answer::Count(count) => write!(f, "{count}"),
            Answer::Value(value) => write!(f, "value {value}"),
            Answer::NoValue => f.write_str("none"),
            Answer::Failed => f.write_str("err"),
            Answer::Leader => f.write_str("leader"),
            Answer::Follower => f.write_str("follower"),
        }
    }
}

impl Display for Outcome {
    fn fmt(&self, f: &mut Formatter<'_>) -> fmt::Result {
        match self {
            Outcome::Skipped => f.write_str("passed over"),
            Outcome::Begun => f.write_str("begun"),
            Outcome::GoingOn => f.write_str("going on"),
            Outcome::Answered(answer, began) => write!(f, "answer {answer} from {began}"),
            Outcome::Value(Some(value)) => write!(f, "value {value}"),
            Outcome::Value(None) => f.write_str("value none"),
            Outcome::Written => f.write_str("written"),
            Outcome::Leaked => f.write_str("leaked"),
        }
    }
}

impl Display for Numbers {
    fn fmt(&self, f: &mut Formatter<'_>) -> fmt::Result {
        match self {
            Numbers(only, None) => write!(f, "{only}"),
            Numbers(first, Some(second)) => write!(f, "{first} {second}"),
        }
    }
}

impl Display for Event {
    fn fmt(&self, f: &mut Formatter<'_>) -> fmt::Result {
        let Event {
            line,
            party,
            outcome,
            numbers,
        } = self;
        write!(f, "{line} {party} {outcome}: {numbers}")
    }
}

impl Display for End {
    fn fmt(&self, f: &mut Formatter<'_>) -> fmt::Result {
        let End { numbers, value } = self;
        match value {
            Some(value) => write!(f, "end: {numbers} value {value}"),
            None => write!(f, "end: {numbers} value none"),
        }
    }
}
