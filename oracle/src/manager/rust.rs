//! The kernel's own manager, unchanged, behind the test of form (RULES S2) and table limit (N2).

use kernel_virtual_memory::{Segment, SplitSegmentError, VirtualMemoryManager};
use x86_64::VirtAddr;

use super::{SEGMENTS, form};
use crate::answer::{Answer, Refusal, Value};
use crate::calls::ManagerCall;
use crate::caught::caught;

pub struct RustManager {
    inner: VirtualMemoryManager,
    start: u64,
    size: u64,
    guarded: bool,
}

impl RustManager {
    /// A manager with an empty arena, until a call makes another. A guarded one tests the form and
    /// the table limit, which the Rust does not; an unguarded one hands every call to the Rust.
    #[must_use]
    pub fn new(guarded: bool) -> Self {
        Self {
            inner: VirtualMemoryManager::new(VirtAddr::new(0), 0),
            start: 0,
            size: 0,
            guarded,
        }
    }

    pub fn answer(&mut self, call: &ManagerCall) -> Answer {
        if !self.guarded {
            return caught(|| self.ask(call));
        }
        if let Err(refusal) = form::test(call) {
            return Answer::No(refusal);
        }
        if self.inner.segments().count() < SEGMENTS {
            return caught(|| self.ask(call));
        }
        self.answer_when_full(call)
    }

    /// With 64 segments held the Rust answers on a copy, which is kept unless it then holds more.
    fn answer_when_full(&mut self, call: &ManagerCall) -> Answer {
        let mut copy = self.copy();
        let answer = caught(|| copy.ask(call));
        if copy.inner.segments().count() > SEGMENTS {
            return Answer::No(Refusal::TableFull);
        }
        *self = copy;
        answer
    }

    fn copy(&self) -> Self {
        let mut inner = VirtualMemoryManager::new(VirtAddr::new(self.start), self.size);
        for segment in self.inner.segments() {
            let marked = inner.mark_as_reserved(*segment);
            marked.expect("held segments do not overlap");
        }
        Self { inner, ..*self }
    }

    fn ask(&mut self, call: &ManagerCall) -> Answer {
        match *call {
            ManagerCall::Manager { start, size } => self.renew(start, size),
            ManagerCall::Reserve { len } => self.reserve(len),
            ManagerCall::Mark { start, len } => {
                let marked = self.inner.mark_as_reserved(segment(start, len));
                marked.map_or(Answer::No(Refusal::SegmentReserved), |()| Answer::done())
            }
            ManagerCall::Release { start, len } => {
                Answer::verdict(self.inner.release(segment(start, len)))
            }
            ManagerCall::Split { start, len, at } => {
                self.split(segment(start, len), VirtAddr::new(at))
            }
            ManagerCall::Segments => self.segments(),
        }
    }

    fn renew(&mut self, start: u64, size: u64) -> Answer {
        self.inner = VirtualMemoryManager::new(VirtAddr::new(start), size);
        self.start = start;
        self.size = size;
        Answer::done()
    }

    fn reserve(&mut self, len: u64) -> Answer {
        let held: Vec<Segment> = self.inner.segments().copied().collect();
        let Some(reserved) = self.inner.reserve_bytes(len) else {
            return Answer::No(Refusal::NoSpace);
        };
        let start = reserved.start.as_u64();
        let restarts = restarts(&held, self.start, len, start);
        Answer::Ok(vec![Value::Hex(start), Value::Count(restarts)])
    }

    fn split(&mut self, segment: Segment, at: VirtAddr) -> Answer {
        match self.inner.split(segment, at) {
            Ok((low, high)) => {
                let parts = [low.start.as_u64(), low.len, high.start.as_u64(), high.len];
                Answer::Ok(parts.map(Value::Hex).to_vec())
            }
            Err(SplitSegmentError::InvalidSplitPoint) => Answer::No(Refusal::InvalidSplitPoint),
            Err(SplitSegmentError::NotReserved) => Answer::No(Refusal::NotReserved),
        }
    }

    fn segments(&self) -> Answer {
        let held = self.inner.segments();
        Answer::list(held.flat_map(|s| [s.start.as_u64(), s.len]).collect(), 2)
    }
}

fn segment(start: u64, len: u64) -> Segment {
    Segment::new(VirtAddr::new(start), len)
}

/// How often the Rust's search started over. The Rust does not tell, so its search is run again on
/// the segments held before, and must end where the Rust's did.
fn restarts(held: &[Segment], arena: u64, len: u64, answer: u64) -> u64 {
    let mut start = u128::from(arena);
    let mut count = 0;
    while let Some(in_the_way) = held.iter().find(|s| overlaps(s, start, len)) {
        start = u128::from(in_the_way.last().as_u64()) + 1;
        count += 1;
    }
    // Outside the domain the Rust cuts a start past 2^64 - 1 to 64 bits.
    assert_eq!(start as u64, answer, "the search run again ends elsewhere");
    count
}

fn overlaps(existing: &Segment, start: u128, len: u64) -> bool {
    let last = start + (u128::from(len) - 1);
    existing.len != 0
        && start <= u128::from(existing.last().as_u64())
        && u128::from(existing.start.as_u64()) <= last
}
