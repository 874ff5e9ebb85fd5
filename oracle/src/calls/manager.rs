//! The calls of a lone segment manager.

use std::fmt;

use super::words::{BadLine, Words};

#[derive(Clone, Debug, PartialEq, Eq)]
pub enum ManagerCall {
    Manager { start: u64, size: u64 },
    Reserve { len: u64 },
    Mark { start: u64, len: u64 },
    Release { start: u64, len: u64 },
    Split { start: u64, len: u64, at: u64 },
    Segments,
}

impl ManagerCall {
    /// The call of this name, or nothing where the name is another's.
    ///
    /// # Errors
    /// What is wrong with the words after the name.
    pub fn parse(name: &str, words: &mut Words<'_>) -> Result<Option<Self>, BadLine> {
        Ok(Some(match name {
            "manager" => Self::Manager {
                start: words.number("START")?,
                size: words.number("SIZE")?,
            },
            "reserve" => Self::Reserve {
                len: words.number("LEN")?,
            },
            "mark" => Self::Mark {
                start: words.number("START")?,
                len: words.number("LEN")?,
            },
            "release" => Self::Release {
                start: words.number("START")?,
                len: words.number("LEN")?,
            },
            "split" => Self::Split {
                start: words.number("START")?,
                len: words.number("LEN")?,
                at: words.number("AT")?,
            },
            "segments" => Self::Segments,
            _ => return Ok(None),
        }))
    }
}

impl fmt::Display for ManagerCall {
    fn fmt(&self, f: &mut fmt::Formatter<'_>) -> fmt::Result {
        match self {
            Self::Manager { start, size } => write!(f, "manager {start:#x} {size:#x}"),
            Self::Reserve { len } => write!(f, "reserve {len:#x}"),
            Self::Mark { start, len } => write!(f, "mark {start:#x} {len:#x}"),
            Self::Release { start, len } => write!(f, "release {start:#x} {len:#x}"),
            Self::Split { start, len, at } => write!(f, "split {start:#x} {len:#x} {at:#x}"),
            Self::Segments => f.write_str("segments"),
        }
    }
}
