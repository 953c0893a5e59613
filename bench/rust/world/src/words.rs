//! The words of a line.

use std::ops::RangeInclusive;

/// The words of a line that were not read yet. Exactly one space stands between two of them.
pub struct Words<'a> {
    rest: Option<&'a [u8]>,
}

impl<'a> Words<'a> {
    /// All words of a line. An empty line has one word, which is empty.
    pub fn of(line: &'a [u8]) -> Self {
        Words { rest: Some(line) }
    }

    /// Reads the next word.
    pub fn word(&mut self) -> Option<&'a [u8]> {
        let rest = self.rest?;
        match rest.iter().position(|&byte| byte == b' ') {
            Some(space) => {
                self.rest = Some(&rest[space + 1..]);
                Some(&rest[..space])
            }
            None => self.rest.take(),
        }
    }

    /// Reads the next word, which has to be a number.
    pub fn number(&mut self) -> Option<u64> {
        number(self.word()?)
    }

    /// Reads the next word, which has to be a number of this range.
    pub fn number_in(&mut self, range: RangeInclusive<u64>) -> Option<u64> {
        self.number().filter(|number| range.contains(number))
    }

    /// Checks that no word is left.
    pub fn end(&self) -> Option<()> {
        self.rest.is_none().then_some(())
    }
}

/// The number that a word spells: decimal digits, without a sign and without a leading zero.
fn number(word: &[u8]) -> Option<u64> {
    match word {
        [] | [b'0', _, ..] => None,
        digits => digits.iter().try_fold(0u64, |number, &byte| {
            let digit = char::from(byte).to_digit(10)?;
            number.checked_mul(10)?.checked_add(u64::from(digit))
        }),
    }
}
