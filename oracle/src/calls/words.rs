//! The words of a line and the numbers among them.

use std::fmt;
use std::str::SplitAsciiWhitespace;

/// What is wrong with a line that is no call.
#[derive(Clone, Debug, PartialEq, Eq)]
pub struct BadLine(String);

impl BadLine {
    pub fn new(what: impl Into<String>) -> Self {
        Self(what.into())
    }
}

impl fmt::Display for BadLine {
    fn fmt(&self, f: &mut fmt::Formatter<'_>) -> fmt::Result {
        f.write_str(&self.0)
    }
}

pub struct Words<'a>(SplitAsciiWhitespace<'a>);

impl<'a> Words<'a> {
    #[must_use]
    pub fn new(line: &'a str) -> Self {
        Self(line.split_ascii_whitespace())
    }

    pub fn first(&mut self) -> Option<&'a str> {
        self.0.next()
    }

    /// # Errors
    /// If the line ends before the word named `what`.
    pub fn word(&mut self, what: &str) -> Result<&'a str, BadLine> {
        self.0
            .next()
            .ok_or_else(|| BadLine::new(format!("{what} is missing")))
    }

    /// A decimal number, or a hexadecimal one after `0x`.
    ///
    /// # Errors
    /// If the next word is none, or the number does not fit in 64 bits.
    pub fn number(&mut self, what: &str) -> Result<u64, BadLine> {
        let word = self.word(what)?;
        number(word).ok_or_else(|| BadLine::new(format!("{what} is no number: {word}")))
    }

    /// Which of two words comes next: true for the first.
    ///
    /// # Errors
    /// If it is neither.
    pub fn either(&mut self, yes: &str, no: &str) -> Result<bool, BadLine> {
        match self.word(&format!("{yes} or {no}"))? {
            word if word == yes => Ok(true),
            word if word == no => Ok(false),
            word => Err(BadLine::new(format!("neither {yes} nor {no}: {word}"))),
        }
    }

    /// # Errors
    /// If a word is left.
    pub fn end(&mut self) -> Result<(), BadLine> {
        self.0.next().map_or(Ok(()), |word| {
            Err(BadLine::new(format!("too much: {word}")))
        })
    }
}

/// A decimal number, or a hexadecimal one after `0x`, up to 2^64 - 1.
#[must_use]
pub fn number(word: &str) -> Option<u64> {
    let (digits, radix) = word
        .strip_prefix("0x")
        .map_or((word, 10), |digits| (digits, 16));
    let plain = digits.bytes().all(|digit| digit.is_ascii_hexdigit());
    // A sign is no digit, though the standard library takes one.
    u64::from_str_radix(digits, radix).ok().filter(|_| plain)
}
