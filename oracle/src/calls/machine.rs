//! The calls of the machine.

use std::fmt;

use super::create::Create;
use super::words::{BadLine, Words, number};

#[derive(Clone, Debug, PartialEq, Eq)]
pub enum MachineCall {
    File {
        readable: bool,
        bytes: Vec<u8>,
    },
    Start {
        frames: u64,
    },
    Open {
        start: u64,
        size: u64,
    },
    Close {
        p: u64,
    },
    Create(Create),
    Remove {
        p: u64,
        addr: u64,
    },
    Clear {
        p: u64,
    },
    Carve {
        p: u64,
        start: u64,
        end: u64,
    },
    Covers {
        p: u64,
        start: u64,
        end: u64,
    },
    Region {
        p: u64,
        addr: u64,
    },
    Regions {
        p: u64,
    },
    Fault {
        p: u64,
        addr: u64,
        write: bool,
    },
    Populate {
        p: u64,
        addr: u64,
        len: u64,
        write: bool,
    },
    Eager {
        p: u64,
    },
    CloneRegion {
        p: u64,
        addr: u64,
        target: u64,
    },
    Clone {
        p: u64,
        target: u64,
    },
    Protect {
        p: u64,
        addr: u64,
        flags: u64,
    },
    Pin {
        p: u64,
        addr: u64,
    },
    Unpin {
        p: u64,
        addr: u64,
    },
    Load {
        p: u64,
        addr: u64,
    },
    Store {
        p: u64,
        addr: u64,
        byte: u8,
    },
    State,
}

impl MachineCall {
    /// The first word of its line.
    #[must_use]
    pub fn name(&self) -> &'static str {
        match self {
            Self::File { .. } => "file",
            Self::Start { .. } => "start",
            Self::Open { .. } => "open",
            Self::Close { .. } => "close",
            Self::Create(_) => "create",
            Self::Remove { .. } => "remove",
            Self::Clear { .. } => "clear",
            Self::Carve { .. } => "carve",
            Self::Covers { .. } => "covers",
            Self::Region { .. } => "region",
            Self::Regions { .. } => "regions",
            Self::Fault { .. } => "fault",
            Self::Populate { .. } => "populate",
            Self::Eager { .. } => "eager",
            Self::CloneRegion { .. } => "clone_region",
            Self::Clone { .. } => "clone",
            Self::Protect { .. } => "protect",
            Self::Pin { .. } => "pin",
            Self::Unpin { .. } => "unpin",
            Self::Load { .. } => "load",
            Self::Store { .. } => "store",
            Self::State => "state",
        }
    }

    /// The process that it names first.
    #[must_use]
    pub fn process(&self) -> Option<u64> {
        match *self {
            Self::File { .. } | Self::Start { .. } | Self::Open { .. } | Self::State => None,
            Self::Create(Create { p, .. })
            | Self::Close { p }
            | Self::Remove { p, .. }
            | Self::Clear { p }
            | Self::Carve { p, .. }
            | Self::Covers { p, .. }
            | Self::Region { p, .. }
            | Self::Regions { p }
            | Self::Fault { p, .. }
            | Self::Populate { p, .. }
            | Self::Eager { p }
            | Self::CloneRegion { p, .. }
            | Self::Clone { p, .. }
            | Self::Protect { p, .. }
            | Self::Pin { p, .. }
            | Self::Unpin { p, .. }
            | Self::Load { p, .. }
            | Self::Store { p, .. } => Some(p),
        }
    }

    /// The address by which it names a region.
    #[must_use]
    pub fn address(&self) -> Option<u64> {
        match *self {
            Self::Remove { addr, .. }
            | Self::Region { addr, .. }
            | Self::Fault { addr, .. }
            | Self::CloneRegion { addr, .. }
            | Self::Protect { addr, .. }
            | Self::Pin { addr, .. }
            | Self::Unpin { addr, .. } => Some(addr),
            _ => None,
        }
    }

    /// The call of this name, or nothing where the name is another's.
    ///
    /// # Errors
    /// What is wrong with the words after the name.
    pub fn parse(name: &str, words: &mut Words<'_>) -> Result<Option<Self>, BadLine> {
        let call = match name {
            "file" => file(words)?,
            "start" => Self::Start {
                frames: words.number("FRAMES")?,
            },
            "open" => Self::Open {
                start: words.number("START")?,
                size: words.number("SIZE")?,
            },
            "state" => Self::State,
            _ => return Self::of_process(name, words),
        };
        Ok(Some(call))
    }

    /// The calls whose first word is the number of a process.
    fn of_process(name: &str, words: &mut Words<'_>) -> Result<Option<Self>, BadLine> {
        let mut p = || words.number("P");
        let call = match name {
            "close" => Self::Close { p: p()? },
            "clear" => Self::Clear { p: p()? },
            "regions" => Self::Regions { p: p()? },
            "eager" => Self::Eager { p: p()? },
            "create" => Self::Create(Create::parse(p()?, words)?),
            "carve" => Self::Carve {
                p: p()?,
                start: start(words)?,
                end: end(words)?,
            },
            "covers" => Self::Covers {
                p: p()?,
                start: start(words)?,
                end: end(words)?,
            },
            "clone" => Self::Clone {
                p: p()?,
                target: words.number("TARGET")?,
            },
            _ => return Self::at_address(name, words),
        };
        Ok(Some(call))
    }

    /// The calls whose second word is an address.
    fn at_address(name: &str, words: &mut Words<'_>) -> Result<Option<Self>, BadLine> {
        let known = [
            "remove",
            "region",
            "fault",
            "populate",
            "clone_region",
            "protect",
            "pin",
            "unpin",
            "load",
            "store",
        ];
        if !known.contains(&name) {
            return Ok(None);
        }
        let (p, addr) = (words.number("P")?, words.number("ADDR")?);
        Ok(Some(match name {
            "remove" => Self::Remove { p, addr },
            "region" => Self::Region { p, addr },
            "fault" => Self::Fault {
                p,
                addr,
                write: words.either("w", "r")?,
            },
            "populate" => {
                let len = words.number("LEN")?;
                Self::Populate {
                    p,
                    addr,
                    len,
                    write: words.either("w", "r")?,
                }
            }
            "clone_region" => Self::CloneRegion {
                p,
                addr,
                target: words.number("TARGET")?,
            },
            "protect" => Self::Protect {
                p,
                addr,
                flags: words.number("FLAGS")?,
            },
            "pin" => Self::Pin { p, addr },
            "unpin" => Self::Unpin { p, addr },
            "load" => Self::Load { p, addr },
            _ => Self::Store {
                p,
                addr,
                byte: byte(words)?,
            },
        }))
    }
}

fn start(words: &mut Words<'_>) -> Result<u64, BadLine> {
    words.number("START")
}

fn end(words: &mut Words<'_>) -> Result<u64, BadLine> {
    words.number("END")
}

fn byte(words: &mut Words<'_>) -> Result<u8, BadLine> {
    let value = words.number("BYTE")?;
    u8::try_from(value).map_err(|_| BadLine::new(format!("BYTE is no byte: {value}")))
}

fn file(words: &mut Words<'_>) -> Result<MachineCall, BadLine> {
    let readable = words.either("readable", "unreadable")?;
    let digits = words.first().unwrap_or_default();
    let bytes = hex_bytes(digits).ok_or_else(|| BadLine::new("HEXBYTES are no bytes"))?;
    Ok(MachineCall::File { readable, bytes })
}

fn hex_bytes(digits: &str) -> Option<Vec<u8>> {
    let digits = digits.as_bytes().chunks(2);
    digits
        .map(|pair| {
            let pair = std::str::from_utf8(pair)
                .ok()
                .filter(|pair| pair.len() == 2)?;
            number(&format!("0x{pair}")).map(|byte| byte as u8)
        })
        .collect()
}

impl fmt::Display for MachineCall {
    fn fmt(&self, f: &mut fmt::Formatter<'_>) -> fmt::Result {
        let way = |write: &bool| if *write { "w" } else { "r" };
        match self {
            Self::File { readable, bytes } => {
                f.write_str(if *readable {
                    "file readable "
                } else {
                    "file unreadable "
                })?;
                bytes.iter().try_for_each(|byte| write!(f, "{byte:02x}"))
            }
            Self::Start { frames } => write!(f, "start {frames}"),
            Self::Open { start, size } => write!(f, "open {start:#x} {size:#x}"),
            Self::Close { p } => write!(f, "close {p}"),
            Self::Create(create) => create.fmt(f),
            Self::Remove { p, addr } => write!(f, "remove {p} {addr:#x}"),
            Self::Clear { p } => write!(f, "clear {p}"),
            Self::Carve { p, start, end } => write!(f, "carve {p} {start:#x} {end:#x}"),
            Self::Covers { p, start, end } => write!(f, "covers {p} {start:#x} {end:#x}"),
            Self::Region { p, addr } => write!(f, "region {p} {addr:#x}"),
            Self::Regions { p } => write!(f, "regions {p}"),
            Self::Fault { p, addr, write } => write!(f, "fault {p} {addr:#x} {}", way(write)),
            Self::Populate {
                p,
                addr,
                len,
                write,
            } => {
                write!(f, "populate {p} {addr:#x} {len:#x} {}", way(write))
            }
            Self::Eager { p } => write!(f, "eager {p}"),
            Self::CloneRegion { p, addr, target } => {
                write!(f, "clone_region {p} {addr:#x} {target}")
            }
            Self::Clone { p, target } => write!(f, "clone {p} {target}"),
            Self::Protect { p, addr, flags } => write!(f, "protect {p} {addr:#x} {flags:#x}"),
            Self::Pin { p, addr } => write!(f, "pin {p} {addr:#x}"),
            Self::Unpin { p, addr } => write!(f, "unpin {p} {addr:#x}"),
            Self::Load { p, addr } => write!(f, "load {p} {addr:#x}"),
            Self::Store { p, addr, byte } => write!(f, "store {p} {addr:#x} {byte}"),
            Self::State => f.write_str("state"),
        }
    }
}
