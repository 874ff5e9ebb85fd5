//! Random calls of a lone manager: sequences, each on an arena of its own, that stay near what the
//! manager holds.

use crate::calls::ManagerCall;
use crate::manager::{PlainManager, SEGMENTS};
use crate::random::Random;

const LONGEST: u64 = 400;
const UPPER: u64 = 0xffff_8000_0000_0000;
const HALF: u64 = 1 << 47;
const PAGE: u64 = 4096;

const ARENAS: [(u64, u64); 14] = [
    (0x10000, 0x10000),
    (0x10000, 0x10000),
    (0x10001, 0xfffe),
    (0, 0),
    (0, 1),
    (0, HALF),
    (UPPER, HALF),
    (UPPER, 0),
    (HALF - 0x8000, 0x8000),
    (HALF - 1, 1),
    (u64::MAX, 1),
    (u64::MAX - 0x7fff, 0x8000),
    (UPPER, 0x40000),
    (0x1000, 0x100_0000),
];

const LENGTHS: [u64; 16] = [
    0,
    1,
    2,
    PAGE - 1,
    PAGE,
    PAGE,
    PAGE,
    PAGE + 1,
    2 * PAGE,
    3 * PAGE,
    0x10000,
    0xb000,
    0xb001,
    HALF - 1,
    HALF,
    u64::MAX,
];

/// What a sequence is after, by which its calls are drawn.
#[derive(Clone, Copy)]
enum Mood {
    /// Everything, bad forms among it.
    Mixed,
    /// Good forms alone, so that the sequence goes on.
    Clean,
    /// Small segments, until the table is full.
    Filling,
}

pub struct ManagerScript {
    random: Random,
    model: PlainManager,
    mood: Mood,
    left: u64,
}

impl ManagerScript {
    #[must_use]
    pub fn new(seed: u64) -> Self {
        Self {
            random: Random::new(seed),
            model: PlainManager::new(),
            mood: Mood::Mixed,
            left: 0,
        }
    }

    /// The next sequence: a call that makes the manager, and what follows up to the next such.
    pub fn sequence(&mut self) -> Vec<ManagerCall> {
        self.left = 0;
        let first = self.next_call();
        let mut calls = vec![first];
        while self.left > 0 {
            calls.push(self.next_call());
        }
        calls
    }

    pub fn next_call(&mut self) -> ManagerCall {
        let call = if self.left == 0 {
            self.begin()
        } else {
            self.draw()
        };
        self.left = self.left.saturating_sub(1);
        self.model.answer(&call);
        call
    }

    fn begin(&mut self) -> ManagerCall {
        self.mood = self
            .random
            .pick(&[Mood::Mixed, Mood::Clean, Mood::Clean, Mood::Filling]);
        self.left = 2 + self.random.below(LONGEST);
        let (start, size) = self.random.pick(&ARENAS);
        if matches!(self.mood, Mood::Mixed) && self.random.once_in(8) {
            return ManagerCall::Manager {
                start: self.address(),
                size: self.length(),
            };
        }
        ManagerCall::Manager { start, size }
    }

    fn draw(&mut self) -> ManagerCall {
        let call = self.any_call();
        let bad = self.model.clone().answer(&call).ends_comparison();
        match self.mood {
            Mood::Mixed if !bad || self.random.once_in(4) => call,
            Mood::Filling => self.filling_call(),
            _ if !bad => call,
            _ => ManagerCall::Segments,
        }
    }

    fn any_call(&mut self) -> ManagerCall {
        match self.random.below(16) {
            0..5 => ManagerCall::Reserve { len: self.length() },
            5..10 => ManagerCall::Mark {
                start: self.address(),
                len: self.length(),
            },
            10..12 => {
                let (start, len) = self.segment();
                ManagerCall::Release { start, len }
            }
            12..15 => self.split(),
            _ => ManagerCall::Segments,
        }
    }

    /// Mostly reservations of a few bytes, so that 64 are held before the sequence ends.
    fn filling_call(&mut self) -> ManagerCall {
        let full = self.model.held().len() == SEGMENTS;
        match self.random.below(12) {
            0 => self.split(),
            1 => ManagerCall::Mark {
                start: self.address(),
                len: 0,
            },
            2 => ManagerCall::Mark {
                start: self.address(),
                len: self.random.below(3),
            },
            3..7 if full || self.random.once_in(16) => {
                let (start, len) = self.segment();
                ManagerCall::Release { start, len }
            }
            _ => ManagerCall::Reserve {
                len: self.random.pick(&[1, 2, 0x100, PAGE, 3 * PAGE]),
            },
        }
    }

    fn split(&mut self) -> ManagerCall {
        let (start, len) = self.segment();
        let inside = start.wrapping_add(self.random.below(len.max(1)));
        let page = inside.wrapping_add(PAGE - 1) / PAGE * PAGE;
        let at = match self.random.below(8) {
            0 => self.address(),
            1 => start,
            2 => start.wrapping_add(len),
            3 => inside,
            _ => page,
        };
        ManagerCall::Split { start, len, at }
    }

    /// Mostly one that is held, at times one a byte beside it.
    fn segment(&mut self) -> (u64, u64) {
        let held = self.model.held();
        if held.is_empty() || self.random.once_in(8) {
            return (self.address(), self.length());
        }
        let (start, len) = self.random.pick(held);
        match self.random.below(12) {
            0 => (start, self.beside(len)),
            1 => (self.beside(start), len),
            _ => (start, len),
        }
    }

    /// An end of the arena or of a held segment, or beside it; at times one far off.
    fn address(&mut self) -> u64 {
        let held = self.model.held();
        let (start, len) = match self.random.below(8) {
            0..3 => self.model.arena(),
            3..7 if !held.is_empty() => self.random.pick(held),
            7 => {
                return self
                    .random
                    .pick(&[0, HALF - 1, HALF, UPPER - 1, UPPER, u64::MAX, 1 << 63]);
            }
            _ => (self.random.below(64) * PAGE, self.random.below(4) * PAGE),
        };
        let end = self.random.pick(&[start, start.wrapping_add(len)]);
        self.beside(end)
    }

    fn length(&mut self) -> u64 {
        match self.random.below(8) {
            0 => {
                let (_, size) = self.model.arena();
                self.beside(size)
            }
            1 => self.gap(),
            2 => self.random.below(17) * PAGE,
            _ => self.random.pick(&LENGTHS),
        }
    }

    /// The bytes between two held neighbours, or a byte more or less.
    fn gap(&mut self) -> u64 {
        let held = self.model.held();
        if held.len() < 2 {
            return PAGE;
        }
        let at = self.random.below(held.len() as u64 - 1) as usize;
        let between = held[at + 1]
            .0
            .wrapping_sub(held[at].0.wrapping_add(held[at].1));
        self.beside(between)
    }

    fn beside(&mut self, value: u64) -> u64 {
        let by = self
            .random
            .pick(&[0, 0, 0, 1, u64::MAX, PAGE, PAGE.wrapping_neg(), PAGE / 2]);
        value.wrapping_add(by)
    }
}
