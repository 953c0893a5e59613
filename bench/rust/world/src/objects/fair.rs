//! The lock in which parties that starve come before all others.

use crate::event::{Answer, Numbers};
use crate::object::{Hold, Next, Object};
use crate::words::Words;

/// What the holder weighs, and each starver.
const HOLDER: u64 = 1;
const STARVER: u64 = 2;

const MAX_CAP: u64 = (1 << 62) - 1;
const MAX_SPINS: u64 = 1024;

/// Its word is the sum of what the holder and the starvers weigh.
#[derive(Clone, PartialEq, Eq, Hash)]
pub struct Fair {
    word: u64,
    /// How many may starve at the same time.
    cap: u64,
    /// How many looks of a `lock` are counted.
    patience: u64,
}

/// The steps of its calls.
#[derive(Clone, Copy, PartialEq, Eq, Hash)]
pub enum Call {
    /// Tries to acquire the lock, after so many looks that found it held.
    Lock {
        looks: u64,
    },
    /// Waits until the lock is free, or for too long.
    Look {
        looks: u64,
    },
    Try,
    /// Tries to acquire the lock, and learns why that fails.
    TryOrLearn,
    IsLocked,
    /// Becomes a starver by an exchange of the word that it found, of a `lock` so as to acquire the lock.
    Starve {
        found: Option<u64>,
        to_lock: bool,
    },
    TryAsOnlyStarver,
    /// Acquires the lock as a starver.
    Enter {
        waits: bool,
    },
    /// Waits as a starver until the lock is free.
    Await,
    /// Stops starving, and has the lock.
    StopStarving,
    DropStarver,
    Release,
}

impl Fair {
    fn is_locked(&self) -> bool {
        self.word % STARVER == HOLDER
    }

    /// Puts the second word in place of the first.
    fn exchange(&mut self, from: u64, to: u64) -> bool {
        let is_found = self.word == from;
        if is_found {
            self.word = to;
        }
        is_found
    }

    fn look(&self, looks: u64) -> Next<Call> {
        Next::Continue(if !self.is_locked() {
            Call::Lock { looks }
        } else if looks < self.patience {
            Call::Look { looks: looks + 1 }
        } else {
            Call::Starve {
                found: None,
                to_lock: true,
            }
        })
    }

    fn starve(&mut self, found: Option<u64>, to_lock: bool) -> Next<Call> {
        let word = self.word;
        if word / STARVER >= self.cap {
            return if to_lock {
                Next::Continue(Call::Look {
                    looks: self.patience,
                })
            } else {
                Next::Answers(Answer::Refused)
            };
        }
        if found != Some(word) {
            return Next::Continue(Call::Starve {
                found: Some(word),
                to_lock,
            });
        }
        self.word += STARVER;
        if to_lock {
            Next::Continue(Call::Enter { waits: true })
        } else {
            Next::Grants(Hold::Starver)
        }
    }

    fn enter(&mut self, waits: bool) -> Next<Call> {
        if !self.is_locked() {
            self.word += HOLDER;
            Next::Continue(Call::StopStarving)
        } else if waits {
            Next::Continue(Call::Await)
        } else {
            Next::Answers(Answer::Refused)
        }
    }

    /// Takes a weight off the word.
    fn leave(&mut self, weight: u64) -> Next<Call> {
        self.word -= weight;
        Next::Leaves(None)
    }
}

impl Object for Fair {
    type Call = Call;

    fn open(words: &mut Words) -> Option<(Self, Option<u64>)> {
        let value = words.number()?;
        let cap = words.number_in(1..=MAX_CAP)?;
        let patience = words.number_in(0..=MAX_SPINS)? + 1;
        Some((
            Fair {
                word: 0,
                cap,
                patience,
            },
            Some(value),
        ))
    }

    fn call(words: &mut Words) -> Option<Call> {
        match words.word()? {
            b"lock" => Some(Call::Lock { looks: 0 }),
            b"try_lock" => Some(Call::Try),
            b"try_lock_starver" => Some(Call::TryOrLearn),
            b"is_locked" => Some(Call::IsLocked),
            b"starve" => Some(Call::Starve {
                found: None,
                to_lock: false,
            }),
            b"starver_try_lock_fair" => Some(Call::TryAsOnlyStarver),
            b"starver_try_lock" => Some(Call::Enter { waits: false }),
            b"starver_lock" => Some(Call::Enter { waits: true }),
            b"starver_drop" => Some(Call::DropStarver),
            b"release" => Some(Call::Release),
            _ => None,
        }
    }

    fn begins(call: Call, held: Option<Hold>) -> bool {
        match call {
            Call::Release => matches!(held, Some(Hold::Write)),
            Call::TryAsOnlyStarver | Call::Enter { .. } | Call::DropStarver => {
                matches!(held, Some(Hold::Starver))
            }
            _ => held.is_none(),
        }
    }

    fn step(&mut self, call: Call, _held: Option<Hold>, _value: &mut Option<u64>) -> Next<Call> {
        match call {
            Call::Lock { .. } | Call::Try | Call::TryOrLearn if self.exchange(0, HOLDER) => {
                Next::Grants(Hold::Write)
            }
            Call::Lock { looks } => Next::Continue(Call::Look { looks }),
            Call::Look { looks } => self.look(looks),
            Call::Try => Next::Answers(Answer::Refused),
            Call::TryOrLearn if self.word == HOLDER => Next::Answers(Answer::Locked),
            Call::TryOrLearn => Next::Answers(Answer::Starved),
            Call::IsLocked => Next::Answers(Answer::Is(self.is_locked())),
            Call::Starve { found, to_lock } => self.starve(found, to_lock),
            Call::TryAsOnlyStarver if self.exchange(STARVER, STARVER + HOLDER) => {
                Next::Continue(Call::StopStarving)
            }
            Call::TryAsOnlyStarver => Next::Answers(Answer::Refused),
            Call::Enter { waits } => self.enter(waits),
            Call::Await if self.is_locked() => Next::Continue(Call::Await),
            Call::Await => Next::Continue(Call::Enter { waits: true }),
            Call::StopStarving => {
                self.word -= STARVER;
                Next::Grants(Hold::Write)
            }
            Call::DropStarver => self.leave(STARVER),
            Call::Release => self.leave(HOLDER),
        }
    }

    fn fail(call: Call) -> Option<Next<Call>> {
        match call {
            Call::Lock { looks } => Some(Next::Continue(Call::Look { looks })),
            _ => None,
        }
    }

    fn numbers(&self) -> Numbers {
        Numbers(self.word, None)
    }
}
