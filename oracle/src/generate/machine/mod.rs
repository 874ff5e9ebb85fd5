//! Random calls of the machine: sequences, each from an empty machine, that stay near the regions
//! that there are.

mod first;
mod values;

use std::collections::VecDeque;

use crate::calls::{Create, Kind, MachineCall, Marks};
use crate::machine::PROCESSES;
use crate::plain::{PAGE, PlainMachine};
use crate::random::Random;

const LONGEST: u64 = 300;
const HALF: u64 = 1 << 47;
const SIZES: [u64; 12] = [
    1,
    PAGE - 1,
    PAGE,
    PAGE,
    PAGE,
    PAGE + 1,
    2 * PAGE - 1,
    2 * PAGE,
    2 * PAGE,
    2 * PAGE + 1,
    3 * PAGE,
    5 * PAGE,
];
const LARGE_SIZES: [u64; 8] = [
    64 * PAGE,
    127 * PAGE,
    129 * PAGE,
    200 * PAGE + 1,
    256 * PAGE,
    1 << 40,
    HALF - PAGE,
    HALF,
];
/// Numbers that covers takes as well as any others.
const FAR: [u64; 6] = [0, 1, HALF - 1, HALF, 0xffff_8000_0000_0000, u64::MAX];
/// Where there is room for everything.
const WIDE_ARENA: (u64, u64) = (0x1000, 0x20_0000);
const ARENAS: [(u64, u64); 6] = [
    (0x1000, 0x10_0000),
    (0x1000, 0x10_0000),
    (0x10000, 0x8000),
    (HALF - 0x20000, 0x20000),
    (0, HALF),
    (0x5000, 0),
];

const TOO_MANY: MachineCall = MachineCall::Start { frames: 257 };

/// What a sequence is after.
#[derive(Clone, Copy, PartialEq)]
enum Mood {
    /// Everything, bad forms among it.
    Mixed,
    /// Good forms alone, so that the sequence goes on.
    Clean,
    /// Small regions, until a process has no slot left.
    Crowded,
    /// Large regions and many frames, until pages and entries run out.
    Wide,
    /// A process has hardly a page left to map.
    FewPages,
    /// The machine has hardly a page entry left.
    FewEntries,
    /// A range with two holders, shadowed in part.
    Shadowed,
    /// Bad forms at every turn, to see what the Rust does with them.
    Wild,
}

impl Mood {
    /// Whether most regions allow all, so that tables stay full and ranges shadowed.
    fn is_easy(self) -> bool {
        matches!(
            self,
            Self::Wide | Self::FewPages | Self::FewEntries | Self::Shadowed
        )
    }
}

pub struct MachineScript {
    random: Random,
    model: PlainMachine,
    wild: bool,
    mood: Mood,
    arena: (u64, u64),
    frames: u64,
    /// Calls that come before all others.
    first: VecDeque<MachineCall>,
    left: u64,
}

impl MachineScript {
    #[must_use]
    pub fn new(seed: u64) -> Self {
        let mut model = PlainMachine::new();
        for file in Self::files() {
            model.answer(&file);
        }
        Self {
            random: Random::new(seed),
            model,
            wild: false,
            mood: Mood::Mixed,
            arena: ARENAS[0],
            frames: 0,
            first: VecDeque::new(),
            left: 0,
        }
    }

    /// Sequences for an unguarded machine.
    #[must_use]
    pub fn wild(seed: u64) -> Self {
        Self {
            wild: true,
            ..Self::new(seed)
        }
    }

    /// The files of every sequence: past a page, unreadable, a few bytes, one.
    #[must_use]
    pub fn files() -> Vec<MachineCall> {
        let long: Vec<u8> = (0..4097_u32).map(|i| (i * 7 + i / 256) as u8).collect();
        let file = |readable, bytes| MachineCall::File { readable, bytes };
        vec![
            file(true, long),
            file(false, vec![1, 2]),
            file(true, vec![0xaa, 0xbb, 0xcc]),
            file(true, vec![0xff]),
        ]
    }

    /// The next sequence: a start and what follows up to the next.
    pub fn sequence(&mut self) -> Vec<MachineCall> {
        self.left = 0;
        let mut calls = vec![self.next_call()];
        while self.left > 0 {
            calls.push(self.next_call());
        }
        calls
    }

    /// A sequence with so many calls after its start and what brings it to its first tables.
    pub fn long_sequence(&mut self, calls: u64) -> Vec<MachineCall> {
        self.left = 0;
        let mut sequence = vec![self.next_call()];
        self.left = calls + self.first.len() as u64;
        while self.left > 0 {
            sequence.push(self.next_call());
        }
        sequence
    }

    pub fn next_call(&mut self) -> MachineCall {
        let call = if self.left == 0 {
            self.begin()
        } else {
            let first = self.first.pop_front();
            first.unwrap_or_else(|| self.draw())
        };
        self.left = self.left.saturating_sub(1);
        self.model.answer(&call);
        call
    }

    fn begin(&mut self) -> MachineCall {
        let moods = [
            Mood::Mixed,
            Mood::Mixed,
            Mood::Clean,
            Mood::Clean,
            Mood::Clean,
            Mood::Crowded,
            Mood::Wide,
            Mood::FewPages,
            Mood::FewEntries,
            Mood::Shadowed,
        ];
        self.mood = if self.wild {
            Mood::Wild
        } else {
            self.random.pick(&moods)
        };
        self.arena = match self.mood {
            Mood::Mixed | Mood::Clean | Mood::Wild => self.random.pick(&ARENAS),
            _ => WIDE_ARENA,
        };
        self.first = self.first_calls().into();
        self.left = 2 + self.first.len() as u64 + self.random.below(LONGEST);
        let start = self.start();
        if start == TOO_MANY {
            // nothing is started: nothing more can be asked
            self.left = 1;
        }
        start
    }

    fn start(&mut self) -> MachineCall {
        if !self.wild && self.bad() {
            return TOO_MANY;
        }
        let frames = match self.mood {
            Mood::Wide | Mood::FewPages | Mood::FewEntries => 256,
            Mood::Crowded | Mood::Shadowed => self.random.pick(&[12, 16, 24]),
            Mood::Mixed | Mood::Clean | Mood::Wild => self
                .random
                .pick(&[0, 1, 2, 3, 4, 6, 8, 12, 16, 24, 64, 256]),
        };
        self.frames = frames;
        MachineCall::Start { frames }
    }

    fn draw(&mut self) -> MachineCall {
        let open = (0..PROCESSES)
            .filter(|p| self.model.open_process(*p).is_some())
            .count();
        let few = match self.mood {
            Mood::Wide | Mood::FewEntries => 8,
            Mood::Crowded => 1,
            _ => 2,
        };
        if open == 0 || (open < few && self.random.once_in(8)) || self.random.once_in(90) {
            return self.open();
        }
        let p = self.process();
        match self.mood {
            Mood::Crowded if self.random.once_in(3) => self.create(p),
            Mood::Wide if !self.random.once_in(3) => self.wide_call(p),
            Mood::Crowded if self.random.once_in(2) => self.list_call(p),
            _ if self.random.once_in(4) => self.list_call(p),
            _ => self.page_call(p),
        }
    }

    /// A call that fills the tables: large regions, populated and cloned on and on.
    fn wide_call(&mut self, p: u64) -> MachineCall {
        let (addr, size) = self.span(p);
        match self.random.below(10) {
            0..2 => self.create(p),
            2..6 => MachineCall::Populate {
                p,
                addr,
                len: size,
                write: self.write(),
            },
            6..8 => MachineCall::Fault {
                p,
                addr: self.address(p),
                write: true,
            },
            8 => MachineCall::Clone {
                p,
                target: self.emptiest(),
            },
            _ => MachineCall::CloneRegion {
                p,
                addr,
                target: self.emptiest(),
            },
        }
    }

    /// A call about pages and their bytes.
    fn page_call(&mut self, p: u64) -> MachineCall {
        match self.random.below(64) {
            0..12 => self.create(p),
            12..28 => MachineCall::Fault {
                p,
                addr: self.address(p),
                write: self.write(),
            },
            28..36 => self.populate(p),
            36..44 => self.store(p),
            44..48 => MachineCall::Load {
                p,
                addr: self.mapped(p),
            },
            48..54 => {
                let target = self.process();
                MachineCall::CloneRegion {
                    p,
                    addr: self.address(p),
                    target,
                }
            }
            54..58 => MachineCall::Clone {
                p,
                target: self.process(),
            },
            58..62 => MachineCall::Protect {
                p,
                addr: self.address(p),
                flags: self.flags(),
            },
            _ => MachineCall::Eager { p },
        }
    }

    /// A call about the list of regions, or about all of it.
    fn list_call(&mut self, p: u64) -> MachineCall {
        match self.random.below(80) {
            0..20 => self.carve(p),
            20..28 => MachineCall::Remove {
                p,
                addr: self.address(p),
            },
            28..38 => MachineCall::Pin {
                p,
                addr: self.address(p),
            },
            38..50 => MachineCall::Unpin {
                p,
                addr: self.pinned(p),
            },
            50..58 => self.covers(p),
            58..64 => MachineCall::Region {
                p,
                addr: self.address(p),
            },
            64..71 => MachineCall::Regions { p },
            71..74 => MachineCall::State,
            74..77 => MachineCall::Close { p },
            77..79 => MachineCall::Clear { p },
            _ if self.mood == Mood::Mixed && self.random.once_in(2) => TOO_MANY,
            _ => self.start(),
        }
    }

    fn covers(&mut self, p: u64) -> MachineCall {
        let mut bound = || {
            let far = self.random.once_in(12);
            if far {
                self.random.pick(&FAR)
            } else {
                self.address(p)
            }
        };
        let (start, end) = (bound(), bound());
        MachineCall::Covers { p, start, end }
    }

    fn open(&mut self) -> MachineCall {
        let other = self.random.once_in(6);
        let (start, size) = if other {
            self.random.pick(&ARENAS)
        } else {
            self.arena
        };
        let by = if self.bad() {
            self.random.pick(&[1, PAGE, HALF, u64::MAX])
        } else {
            0
        };
        MachineCall::Open {
            start: start.wrapping_add(by),
            size,
        }
    }

    fn create(&mut self, p: u64) -> MachineCall {
        let run = self.random.once_in(8);
        let size = if run { self.run_size() } else { self.size() };
        let marks = self.marks();
        let kind = match self.random.below(10) {
            0..5 if run => Kind::Eager(marks),
            _ if run => Kind::Shared,
            _ if self.mood == Mood::Wide && !self.random.once_in(6) => Kind::Lazy(marks),
            0..5 => Kind::Lazy(marks),
            5..7 => Kind::Eager(marks),
            7..9 => Kind::File(marks, self.part(size)),
            _ => Kind::Shared,
        };
        let anywhere = self
            .random
            .below(if self.mood == Mood::Crowded { 8 } else { 2 })
            > 0;
        let start = if anywhere { None } else { Some(self.place(p)) };
        MachineCall::Create(Create {
            p,
            start,
            size,
            kind,
        })
    }

    fn marks(&mut self) -> Marks {
        Marks {
            flags: self.flags(),
            copy: self
                .random
                .once_in(if self.mood == Mood::Wide { 10 } else { 3 }),
            thread: self.random.once_in(6),
        }
    }

    fn populate(&mut self, p: u64) -> MachineCall {
        let addr = self.address(p);
        let len = match self.random.below(12) {
            0 => 0,
            1 => HALF.saturating_sub(addr),
            2 if self.bad_sum() => u64::MAX - addr,
            3 => self.random.pick(&[u64::MAX, HALF, HALF + 1]),
            4 => self.random.pick(&LARGE_SIZES),
            5..8 => self.random.below(24) * PAGE,
            _ => self.random.pick(&SIZES),
        };
        MachineCall::Populate {
            p,
            addr,
            len,
            write: self.write(),
        }
    }

    fn store(&mut self, p: u64) -> MachineCall {
        MachineCall::Store {
            p,
            addr: self.mapped(p),
            byte: self.random.number() as u8,
        }
    }

    fn carve(&mut self, p: u64) -> MachineCall {
        let (one, other) = (self.bound(p), self.bound(p));
        let end = if self.random.once_in(6) { one } else { other };
        let (start, end) = if self.bad() {
            (one + 1, end)
        } else {
            (one.min(end), one.max(end))
        };
        MachineCall::Carve { p, start, end }
    }
}
