//! The words of a line, and the numbers that they may give (docs/RULES.md, "The sheet"). A line that
//! cannot be read is named by its leftmost word at fault and by what was expected there.

use std::fmt::{self, Display, Formatter};

pub struct Unreadable {
    pub word: usize,
    pub expected: Expected,
}

#[derive(Clone, Copy)]
pub enum Expected {
    Phrase(&'static str),
    Number(Limits),
}

pub const END_OF_LINE: Expected = Expected::Phrase("the end of the line");

impl Display for Expected {
    fn fmt(&self, out: &mut Formatter) -> fmt::Result {
        match self {
            Self::Phrase(phrase) => write!(out, "{phrase}"),
            Self::Number(limits) => write!(out, "{limits}"),
        }
    }
}

/// The least and the greatest number that a word may give. A minus sign is allowed only where the
/// least is below 0.
#[derive(Clone, Copy)]
pub struct Limits {
    least: i128,
    greatest: i128,
}

impl Limits {
    const fn up_to(greatest: u64) -> Self {
        let greatest = greatest as i128;
        Self { least: 0, greatest }
    }
}

pub const THREE_BITS: Limits = Limits::up_to(7);
pub const EIGHT_BITS: Limits = Limits::up_to(u8::MAX as u64);
pub const SIXTEEN_BITS: Limits = Limits::up_to(u16::MAX as u64);
pub const THIRTY_TWO_BITS: Limits = Limits::up_to(u32::MAX as u64);
pub const SIXTY_FOUR_BITS: Limits = Limits::up_to(u64::MAX);
pub const NEVER_NEGATIVE: Limits = Limits::up_to(i32::MAX as u64);
pub const SIGNED: Limits = Limits {
    least: i32::MIN as i128,
    greatest: i32::MAX as i128,
};

impl Display for Limits {
    fn fmt(&self, out: &mut Formatter) -> fmt::Result {
        write!(out, "a number from {} to {}", self.least, self.greatest)
    }
}

/// The lines with their numbers. An input that ends with byte 10 yields an empty last line, which is
/// passed over like any blank one.
pub fn lines(input: &[u8]) -> impl Iterator<Item = (usize, &[u8])> {
    (1..).zip(input.split(|byte| *byte == b'\n'))
}

/// The words of a line, taken one by one. `taken` is also the place of the word asked for last,
/// whether it stands there or is missing.
pub struct Words<'a> {
    words: Vec<&'a [u8]>,
    taken: usize,
}

impl<'a> Words<'a> {
    pub fn of(text: &'a [u8]) -> Self {
        let words = text
            .split(|byte| is_blank(*byte))
            .filter(|word| !word.is_empty())
            .collect();
        Self { words, taken: 0 }
    }

    pub fn next(&mut self) -> Option<&'a [u8]> {
        let word = self.words.get(self.taken).copied();
        self.taken += 1;
        word
    }

    pub fn fault(&self, expected: Expected) -> Unreadable {
        Unreadable {
            word: self.taken,
            expected,
        }
    }

    pub fn number<N: TryFrom<i128>>(&mut self, limits: Limits) -> Result<N, Unreadable> {
        let word = self.next();
        word.and_then(|word| number_within(word, limits))
            .ok_or_else(|| self.fault(Expected::Number(limits)))
    }

    pub fn end(&mut self) -> Result<(), Unreadable> {
        match self.next() {
            None => Ok(()),
            Some(_) => Err(self.fault(END_OF_LINE)),
        }
    }
}

fn is_blank(byte: u8) -> bool {
    matches!(byte, b' ' | b'\t' | b'\r')
}

pub fn number_within<N: TryFrom<i128>>(word: &[u8], limits: Limits) -> Option<N> {
    let number = match word {
        [b'-', digits @ ..] if limits.least < 0 => -magnitude(digits)?,
        digits => magnitude(digits)?,
    };
    if number < limits.least || limits.greatest < number {
        return None;
    }
    N::try_from(number).ok()
}

/// The number that the digits write. One too great for 128 bits becomes their greatest, which is
/// beyond all limits as well.
fn magnitude(digits: &[u8]) -> Option<i128> {
    if digits.is_empty() || !digits.iter().all(u8::is_ascii_digit) {
        return None;
    }
    let append = |number: i128, digit: &u8| {
        number
            .saturating_mul(10)
            .saturating_add(i128::from(*digit - b'0'))
    };
    Some(digits.iter().fold(0, append))
}
