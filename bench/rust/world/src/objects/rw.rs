//! The lock of readers, one of which may upgrade, or one writer.

use crate::event::{Answer, Numbers};
use crate::object::{Hold, Next, Object};
use crate::words::Words;

/// What each holder weighs, and what the upgradable reader adds when it asks to upgrade.
const READER: u64 = 8;
const UPGRADABLE: u64 = 2;
const ASKING: u64 = 4;
const WRITER: u64 = 1;

const MAX_CAP: u64 = (1 << 60) - 1;

/// Its word is the sum of what the holders weigh.
#[derive(Clone, PartialEq, Eq, Hash)]
pub struct Rw {
    word: u64,
    /// How many may read at the same time.
    cap: u64,
}

/// What a call does that is not granted what it asks for.
#[derive(Clone, Copy, PartialEq, Eq, Hash)]
pub enum Otherwise {
    Fails,
    Waits,
}

/// The steps of its calls.
#[derive(Clone, Copy, PartialEq, Eq, Hash)]
pub enum Call {
    /// Becomes such a reader, by an exchange of the word that it found.
    Read {
        hold: Hold,
        found: Option<u64>,
        otherwise: Otherwise,
    },
    /// Becomes the writer, by an exchange of this word.
    Write {
        from: u64,
        is_weak: bool,
        otherwise: Otherwise,
    },
    /// Asks to upgrade.
    Upgrade,
    Readers,
    Writers,
    IsLocked,
    Downgrade,
    DowngradeToUpgradable,
    Release,
}

impl Call {
    fn read(hold: Hold, otherwise: Otherwise) -> Option<Self> {
        Some(Call::Read {
            hold,
            found: None,
            otherwise,
        })
    }

    fn write(from: u64, is_weak: bool, otherwise: Otherwise) -> Option<Self> {
        Some(Call::Write {
            from,
            is_weak,
            otherwise,
        })
    }

    /// How a call goes on that is not granted what it asks for: it fails, or goes on by this step.
    fn missed(self, otherwise: Otherwise) -> Next<Self> {
        match otherwise {
            Otherwise::Fails => Next::Answers(Answer::Refused),
            Otherwise::Waits => Next::Continue(self),
        }
    }
}

fn weight(hold: Option<Hold>) -> u64 {
    match hold {
        Some(Hold::Read) => READER,
        Some(Hold::Upgradable) => UPGRADABLE,
        Some(Hold::Write) => WRITER,
        Some(Hold::Starver) | None => 0,
    }
}

impl Rw {
    /// How many read, with the upgradable reader.
    fn readers(&self) -> u64 {
        self.word / READER + self.word % ASKING / UPGRADABLE
    }

    /// Whether the lock lets such a reader in.
    fn admits(&self, hold: Hold) -> bool {
        let others = self.word % READER;
        let is_open = others == 0 || (others == UPGRADABLE && matches!(hold, Hold::Read));
        is_open && self.readers() < self.cap
    }

    fn read(&mut self, hold: Hold, found: Option<u64>, otherwise: Otherwise) -> Next<Call> {
        if !self.admits(hold) {
            return Call::Read {
                hold,
                found: None,
                otherwise,
            }
            .missed(otherwise);
        }
        if found != Some(self.word) {
            return Next::Continue(Call::Read {
                hold,
                found: Some(self.word),
                otherwise,
            });
        }
        self.word += weight(Some(hold));
        Next::Grants(hold)
    }

    /// A party that holds one thing holds another from now on, or nothing.
    fn turn(&mut self, from: Option<Hold>, to: Option<Hold>) -> Next<Call> {
        self.word = self.word - weight(from) + weight(to);
        Next::Leaves(to)
    }
}

impl Object for Rw {
    type Call = Call;

    fn open(words: &mut Words) -> Option<(Self, Option<u64>)> {
        let value = words.number()?;
        let cap = words.number_in(1..=MAX_CAP)?;
        Some((Rw { word: 0, cap }, Some(value)))
    }

    fn call(words: &mut Words) -> Option<Call> {
        use Otherwise::{Fails, Waits};
        match words.word()? {
            b"try_read" => Call::read(Hold::Read, Fails),
            b"read" => Call::read(Hold::Read, Waits),
            b"try_upgradeable_read" => Call::read(Hold::Upgradable, Fails),
            b"upgradeable_read" => Call::read(Hold::Upgradable, Waits),
            b"try_write" => Call::write(0, false, Fails),
            b"try_write_weak" => Call::write(0, true, Fails),
            b"write" => Call::write(0, true, Waits),
            b"reader_count" => Some(Call::Readers),
            b"writer_count" => Some(Call::Writers),
            b"is_locked" => Some(Call::IsLocked),
            b"try_upgrade" => Call::write(UPGRADABLE, false, Fails),
            b"try_upgrade_weak" => Call::write(UPGRADABLE, true, Fails),
            b"upgrade" => Some(Call::Upgrade),
            b"downgrade" => Some(Call::Downgrade),
            b"downgrade_to_upgradeable" => Some(Call::DowngradeToUpgradable),
            b"release" => Some(Call::Release),
            _ => None,
        }
    }

    fn begins(call: Call, held: Option<Hold>) -> bool {
        match call {
            Call::Read { .. }
            | Call::Write { from: 0, .. }
            | Call::Readers
            | Call::Writers
            | Call::IsLocked => held.is_none(),
            Call::Write { .. } | Call::Upgrade => matches!(held, Some(Hold::Upgradable)),
            Call::Downgrade => matches!(held, Some(Hold::Upgradable | Hold::Write)),
            Call::DowngradeToUpgradable => matches!(held, Some(Hold::Write)),
            Call::Release => held.is_some(),
        }
    }

    fn step(&mut self, call: Call, held: Option<Hold>, _value: &mut Option<u64>) -> Next<Call> {
        match call {
            Call::Read {
                hold,
                found,
                otherwise,
            } => self.read(hold, found, otherwise),
            Call::Write { from, .. } if from == self.word => {
                self.word = WRITER;
                Next::Grants(Hold::Write)
            }
            Call::Write { otherwise, .. } => call.missed(otherwise),
            Call::Upgrade => {
                self.word += ASKING;
                Next::Continue(Call::Write {
                    from: UPGRADABLE + ASKING,
                    is_weak: true,
                    otherwise: Otherwise::Waits,
                })
            }
            Call::Readers => Next::Answers(Answer::Count(self.readers())),
            Call::Writers => Next::Answers(Answer::Count(self.word % UPGRADABLE)),
            Call::IsLocked => Next::Answers(Answer::Is(self.word != 0)),
            Call::Downgrade => self.turn(held, Some(Hold::Read)),
            Call::DowngradeToUpgradable => self.turn(held, Some(Hold::Upgradable)),
            Call::Release => self.turn(held, None),
        }
    }

    fn fail(call: Call) -> Option<Next<Call>> {
        match call {
            Call::Write {
                is_weak: true,
                otherwise,
                ..
            } => Some(call.missed(otherwise)),
            _ => None,
        }
    }

    fn numbers(&self) -> Numbers {
        Numbers(self.word, None)
    }
}
