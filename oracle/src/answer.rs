//! What a call answers: values, a refusal of the rules (RULES E), or a panic of the Rust.

use std::fmt;

pub use jhilkompa::Refusal;

#[derive(Clone, Copy, Debug, PartialEq, Eq)]
pub enum Value {
    /// An address or a length.
    Hex(u64),
    Count(u64),
    Verdict(bool),
}

#[derive(Clone, Debug, PartialEq, Eq)]
pub enum Answer {
    Ok(Vec<Value>),
    No(Refusal),
    /// The machine's state, line by line.
    State(String),
    /// The Rust panicked: no answer.
    Panic(String),
    /// What must hold of every answer does not: this.
    Broken(String),
}

impl Answer {
    #[must_use]
    pub fn done() -> Self {
        Self::Ok(Vec::new())
    }

    #[must_use]
    pub fn hex(value: u64) -> Self {
        Self::Ok(vec![Value::Hex(value)])
    }

    #[must_use]
    pub fn count(value: u64) -> Self {
        Self::Ok(vec![Value::Count(value)])
    }

    #[must_use]
    pub fn verdict(value: bool) -> Self {
        Self::Ok(vec![Value::Verdict(value)])
    }

    /// How many there are, and then each of them.
    #[must_use]
    pub fn list(values: Vec<u64>, per_item: usize) -> Self {
        let count = Value::Count((values.len() / per_item) as u64);
        Self::Ok(
            std::iter::once(count)
                .chain(values.into_iter().map(Value::Hex))
                .collect(),
        )
    }

    /// Whether a comparison with the Rust ends here.
    #[must_use]
    pub fn ends_comparison(&self) -> bool {
        match self {
            // the answers 1 to 6, 16 and 21
            Self::No(refusal) => {
                *refusal <= Refusal::NoFile
                    || matches!(refusal, Refusal::MapFailed | Refusal::TableFull)
            }
            Self::Panic(_) | Self::Broken(_) => true,
            Self::Ok(_) | Self::State(_) => false,
        }
    }
}

impl From<Result<Answer, Refusal>> for Answer {
    fn from(result: Result<Answer, Refusal>) -> Self {
        result.unwrap_or_else(Self::No)
    }
}

impl fmt::Display for Value {
    fn fmt(&self, f: &mut fmt::Formatter<'_>) -> fmt::Result {
        match self {
            Self::Hex(value) => write!(f, "{value:#x}"),
            Self::Count(value) => write!(f, "{value}"),
            Self::Verdict(value) => f.write_str(if *value { "yes" } else { "no" }),
        }
    }
}

impl fmt::Display for Answer {
    fn fmt(&self, f: &mut fmt::Formatter<'_>) -> fmt::Result {
        match self {
            Self::Ok(values) => {
                f.write_str("ok")?;
                values.iter().try_for_each(|value| write!(f, " {value}"))
            }
            Self::No(refusal) => write!(f, "no {} {refusal:?}", refusal.number()),
            Self::State(lines) => write!(f, "{lines}end"),
            Self::Panic(message) => write!(f, "panic {message}"),
            Self::Broken(what) => write!(f, "broken {what}"),
        }
    }
}
