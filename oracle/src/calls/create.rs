//! The creation of a region: what is asked for, in its text form.

use std::fmt;

use super::words::{BadLine, Words, number};

/// A region to be made, at a given start or at the lowest free one.
#[derive(Clone, Debug, PartialEq, Eq)]
pub struct Create {
    pub p: u64,
    pub start: Option<u64>,
    pub size: u64,
    pub kind: Kind,
}

#[derive(Clone, Copy, Debug, PartialEq, Eq)]
pub enum Kind {
    Lazy(Marks),
    Eager(Marks),
    File(Marks, Part),
    Shared,
}

#[derive(Clone, Copy, Debug, PartialEq, Eq)]
pub struct Marks {
    pub flags: u64,
    pub copy: bool,
    pub thread: bool,
}

/// The part of a file that a region shows.
#[derive(Clone, Copy, Debug, PartialEq, Eq)]
pub struct Part {
    pub file: u64,
    pub offset: u64,
    pub length: u64,
}

impl Create {
    pub(super) fn parse(p: u64, words: &mut Words<'_>) -> Result<Self, BadLine> {
        let kind = words.word("the kind")?;
        let start = place(words)?;
        let size = words.number("SIZE")?;
        let kind = match kind {
            "lazy" => Kind::Lazy(Marks::parse(words)?),
            "eager" => Kind::Eager(Marks::parse(words)?),
            "file" => Kind::File(Marks::parse(words)?, Part::parse(words)?),
            "shared" => Kind::Shared,
            other => return Err(BadLine::new(format!("no kind is named {other}"))),
        };
        Ok(Self {
            p,
            start,
            size,
            kind,
        })
    }
}

fn place(words: &mut Words<'_>) -> Result<Option<u64>, BadLine> {
    let word = words.word("START or any")?;
    if word == "any" {
        return Ok(None);
    }
    let start = number(word).ok_or_else(|| BadLine::new(format!("START is no number: {word}")));
    start.map(Some)
}

impl Marks {
    fn parse(words: &mut Words<'_>) -> Result<Self, BadLine> {
        Ok(Self {
            flags: words.number("FLAGS")?,
            copy: words.either("copy", "cow")?,
            thread: words.either("thread", "-")?,
        })
    }
}

impl Part {
    fn parse(words: &mut Words<'_>) -> Result<Self, BadLine> {
        Ok(Self {
            file: words.number("FILE")?,
            offset: words.number("OFFSET")?,
            length: words.number("LENGTH")?,
        })
    }
}

impl fmt::Display for Create {
    fn fmt(&self, f: &mut fmt::Formatter<'_>) -> fmt::Result {
        let (kind, marks) = match self.kind {
            Kind::Lazy(marks) => ("lazy", Some(marks)),
            Kind::Eager(marks) => ("eager", Some(marks)),
            Kind::File(marks, _) => ("file", Some(marks)),
            Kind::Shared => ("shared", None),
        };
        let place = self
            .start
            .map_or_else(|| "any".into(), |start| format!("{start:#x}"));
        write!(f, "create {} {kind} {place} {:#x}", self.p, self.size)?;
        if let Some(Marks {
            flags,
            copy,
            thread,
        }) = marks
        {
            let copy = if copy { "copy" } else { "cow" };
            let thread = if thread { "thread" } else { "-" };
            write!(f, " {flags:#x} {copy} {thread}")?;
        }
        if let Kind::File(
            _,
            Part {
                file,
                offset,
                length,
            },
        ) = self.kind
        {
            write!(f, " {file} {offset:#x} {length:#x}")?;
        }
        Ok(())
    }
}
