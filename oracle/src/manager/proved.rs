//! The proved manager, by crate `jhilkompa`: each call by its method and by the library's function in turn.

use jhilkompa::VirtAddr;
use jhilkompa::ffi::segments as c;
use jhilkompa::segments::{Manager, RESULTS, Reserved, Segment};

use crate::answer::{Answer, Refusal, Value};
use crate::calls::ManagerCall;

pub struct ProvedManager {
    manager: Manager,
    /// How many calls were made.
    asked: u64,
}

impl Default for ProvedManager {
    /// A manager of no arena.
    fn default() -> Self {
        let manager = Manager::new(VirtAddr(0), 0).expect("an arena may be empty");
        Self { manager, asked: 0 }
    }
}

impl ProvedManager {
    pub fn answer(&mut self, call: &ManagerCall) -> Answer {
        self.asked += 1;
        let before = self.manager.clone();
        let answer = if self.asked.is_multiple_of(2) {
            self.by_method(call).into()
        } else {
            self.by_function(call)
        };
        if matches!(answer, Answer::No(_)) && self.manager != before {
            return broken("a refusal changed the table");
        }
        answer
    }

    fn by_method(&mut self, call: &ManagerCall) -> Result<Answer, Refusal> {
        let segment = |start, len| Segment::new(VirtAddr(start), len);
        let manager = &mut self.manager;
        match *call {
            ManagerCall::Manager { start, size } => {
                *manager = Manager::new(VirtAddr(start), size)?;
                Ok(Answer::done())
            }
            ManagerCall::Reserve { len } => {
                let Reserved { segment, restarts } = manager.reserve_bytes(len)?;
                let start = Value::Hex(segment.start.0);
                Ok(Answer::Ok(vec![start, Value::Count(restarts)]))
            }
            ManagerCall::Mark { start, len } => {
                let marked = manager.mark_as_reserved(segment(start, len));
                marked.map(|()| Answer::done())
            }
            ManagerCall::Release { start, len } => {
                manager.release(segment(start, len)).map(Answer::verdict)
            }
            ManagerCall::Split { start, len, at } => {
                let (low, high) = manager.split(segment(start, len), VirtAddr(at))?;
                let parts = [low.start.0, low.len, high.start.0, high.len];
                Ok(Answer::Ok(parts.map(Value::Hex).to_vec()))
            }
            ManagerCall::Segments => Ok(self.segments()),
        }
    }

    /// By the library's function, and all words of its results are looked at: zeros stand where there is none.
    fn by_function(&mut self, call: &ManagerCall) -> Answer {
        let mut out = [u64::MAX; RESULTS];
        let number = self.ask(call, &mut out);
        let used = results(call).map_or(RESULTS, |used| if number == 0 { used } else { 0 });
        if out[used..].iter().any(|result| *result != 0) {
            return broken("a result that has no meaning is not 0");
        }
        if number != 0 {
            let refusal = Refusal::from_number(number);
            return refusal.map_or_else(|| broken("an unknown number"), Answer::No);
        }
        match call {
            ManagerCall::Manager { .. } | ManagerCall::Mark { .. } => Answer::done(),
            ManagerCall::Reserve { .. } => {
                Answer::Ok(vec![Value::Hex(out[0]), Value::Count(out[1])])
            }
            ManagerCall::Release { .. } => Answer::verdict(out[0] == 1),
            ManagerCall::Split { .. } => Answer::Ok(out.map(Value::Hex).to_vec()),
            ManagerCall::Segments => self.segments(),
        }
    }

    /// The number that the library gives; 0 is success.
    fn ask(&mut self, call: &ManagerCall, out: &mut [u64; RESULTS]) -> u64 {
        let words = self.manager.words_mut();
        match *call {
            ManagerCall::Manager { start, size } => c::manager_new(words, start, size),
            ManagerCall::Reserve { len } => c::manager_reserve(words, len, out),
            ManagerCall::Mark { start, len } => c::manager_mark(words, start, len),
            ManagerCall::Release { start, len } => c::manager_release(words, start, len, out),
            ManagerCall::Split { start, len, at } => c::manager_split(words, start, len, at, out),
            ManagerCall::Segments => 0,
        }
    }

    fn segments(&self) -> Answer {
        let pairs = self.manager.segments().flat_map(|s| [s.start.0, s.len]);
        Answer::list(pairs.collect(), 2)
    }
}

/// How many results a call has when it succeeds, or nothing where no results are lent.
fn results(call: &ManagerCall) -> Option<usize> {
    match call {
        ManagerCall::Reserve { .. } => Some(2),
        ManagerCall::Release { .. } => Some(1),
        ManagerCall::Split { .. } => Some(4),
        ManagerCall::Manager { .. } | ManagerCall::Mark { .. } | ManagerCall::Segments => None,
    }
}

/// The library broke its contract: no answer of the kind that the oracle gives.
fn broken(what: &str) -> Answer {
    Answer::Broken(format!("the library: {what}"))
}
