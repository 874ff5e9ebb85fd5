//! A manager of our own, written from the rules alone and not from the Rust: it looks at every
//! start that can be lowest, and counts what the search has passed. It can be made wrong in one
//! place, to show that a comparison finds it.

use crate::answer::{Answer, Refusal, Value};
use crate::calls::ManagerCall;

/// RULES N2.
const SEGMENTS: usize = 64;

#[derive(Clone, Debug, Default)]
pub struct PlainManager {
    start: u64,
    size: u64,
    /// By start, then length.
    held: Vec<(u64, u64)>,
    wrong: bool,
}

impl PlainManager {
    #[must_use]
    pub fn new() -> Self {
        Self::default()
    }

    /// The same, but for one comparison.
    #[must_use]
    pub fn wrong() -> Self {
        Self {
            wrong: true,
            ..Self::default()
        }
    }

    #[must_use]
    pub fn held(&self) -> &[(u64, u64)] {
        &self.held
    }

    #[must_use]
    pub fn arena(&self) -> (u64, u64) {
        (self.start, self.size)
    }

    pub fn answer(&mut self, call: &ManagerCall) -> Answer {
        self.try_answer(call).into()
    }

    fn try_answer(&mut self, call: &ManagerCall) -> Result<Answer, Refusal> {
        test_form(call)?;
        match *call {
            ManagerCall::Manager { start, size } => {
                *self = Self {
                    start,
                    size,
                    held: Vec::new(),
                    wrong: self.wrong,
                };
                Ok(Answer::done())
            }
            ManagerCall::Reserve { len } => self.reserve(len),
            ManagerCall::Mark { start, len } => self.mark((start, len)),
            ManagerCall::Release { start, len } => {
                let before = self.held.len();
                self.held.retain(|&held| held != (start, len));
                Ok(Answer::verdict(self.held.len() < before))
            }
            ManagerCall::Split { start, len, at } => self.split((start, len), at),
            ManagerCall::Segments => {
                let words = self.held.iter().flat_map(|&(start, len)| [start, len]);
                Ok(Answer::list(words.collect(), 2))
            }
        }
    }

    fn reserve(&mut self, len: u64) -> Result<Answer, Refusal> {
        if len == 0 || len > self.size {
            return Err(Refusal::NoSpace);
        }
        let last_start = self.start + (self.size - len);
        let past = self
            .held
            .iter()
            .filter_map(|&segment| last(segment)?.checked_add(1));
        let starts = past.chain([self.start]);
        let fits = |start: &u64| (self.start..=last_start).contains(start);
        let free = |start: &u64| !self.overlaps_any((*start, len));
        let start = starts
            .filter(fits)
            .filter(free)
            .min()
            .ok_or(Refusal::NoSpace)?;
        let passed = self.passed(start);
        self.insert((start, len))?;
        Ok(Answer::Ok(vec![Value::Hex(start), Value::Count(passed)]))
    }

    /// The non-empty segments that end in or above the arena and start below `start`.
    fn passed(&self, start: u64) -> u64 {
        let reaches = |&&segment: &&(u64, u64)| last(segment).is_some_and(|l| l >= self.start);
        self.held
            .iter()
            .filter(reaches)
            .filter(|segment| segment.0 < start)
            .count() as u64
    }

    fn mark(&mut self, segment: (u64, u64)) -> Result<Answer, Refusal> {
        if self.overlaps_any(segment) {
            return Err(Refusal::SegmentReserved);
        }
        self.insert(segment).map(|()| Answer::done())
    }

    fn split(&mut self, (start, len): (u64, u64), at: u64) -> Result<Answer, Refusal> {
        let inside = at > start && at - start < len;
        if !inside || !at.is_multiple_of(4096) {
            return Err(Refusal::InvalidSplitPoint);
        }
        let found = self.held.binary_search(&(start, len));
        let found = found.map_err(|_| Refusal::NotReserved)?;
        let (low, high) = ((start, at - start), (at, len - (at - start)));
        self.insert(high)?;
        self.held[found] = low;
        Ok(Answer::Ok(
            [low.0, low.1, high.0, high.1].map(Value::Hex).to_vec(),
        ))
    }

    fn insert(&mut self, segment: (u64, u64)) -> Result<(), Refusal> {
        let Err(at) = self.held.binary_search(&segment) else {
            return Ok(());
        };
        if self.held.len() == SEGMENTS {
            return Err(Refusal::TableFull);
        }
        self.held.insert(at, segment);
        Ok(())
    }

    fn overlaps_any(&self, segment: (u64, u64)) -> bool {
        let Some(end) = last(segment) else {
            return false;
        };
        self.held.iter().any(|&held| {
            last(held).is_some_and(|held_last| {
                // The wrong manager forgets that a last byte is a byte of its segment.
                let begins_in_time = if self.wrong {
                    held.0 < end
                } else {
                    held.0 <= end
                };
                begins_in_time && segment.0 <= held_last
            })
        })
    }
}

/// The rules' test of form (RULES E3, S2), written apart from the harness's own, so that the two are
/// compared as well.
fn test_form(call: &ManagerCall) -> Result<(), Refusal> {
    let (segment, at) = match *call {
        ManagerCall::Manager { start, size } => ((start, size), start),
        ManagerCall::Mark { start, len } | ManagerCall::Release { start, len } => {
            ((start, len), start)
        }
        ManagerCall::Split { start, len, at } => ((start, len), at),
        ManagerCall::Reserve { .. } | ManagerCall::Segments => return Ok(()),
    };
    if half(segment.0).is_none() || half(at).is_none() {
        return Err(Refusal::BadAddress);
    }
    let fits = segment.1 == 0 || is_in_one_half(segment);
    fits.then_some(()).ok_or(Refusal::BadRange)
}

/// The first address of the half in which a canonical address lies: bits 47 to 63 are all the same.
fn half(addr: u64) -> Option<u64> {
    let extended = ((addr << 16) as i64 >> 16) as u64;
    (extended == addr).then_some(addr >> 47 << 47)
}

/// Whether a segment that is not empty, at a canonical start, ends in the half in which it starts.
fn is_in_one_half((start, len): (u64, u64)) -> bool {
    let end = u128::from(start) + u128::from(len);
    half(start).is_some_and(|first| end <= u128::from(first) + (1 << 47))
}

/// The last byte of a segment that has one.
fn last((start, len): (u64, u64)) -> Option<u64> {
    Some(start + len.checked_sub(1)?)
}
