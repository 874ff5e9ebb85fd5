//! The first calls of a sequence that is after a full table or a shadowed range: they bring it there at
//! once, for random calls alone come there seldom.

use super::{MachineScript, Mood};
use crate::calls::{Create, Kind, MachineCall, Marks};
use crate::machine::{ENTRIES, MAPPED, PROCESSES, SLOTS};
use crate::plain::PAGE;

/// Where the first region of a process starts, and one beside all the first ones.
const LOW: u64 = 0x1000;
const HIGH: u64 = 0x18_0000;
/// Flags that allow all.
const FREE: u64 = 7;

impl MachineScript {
    /// What comes after the start in this mood.
    pub(super) fn first_calls(&mut self) -> Vec<MachineCall> {
        match self.mood {
            Mood::Mixed | Mood::Clean | Mood::Wide | Mood::Wild => Vec::new(),
            Mood::Crowded => self.few_slots(),
            Mood::FewPages => self.few_pages(),
            Mood::FewEntries => self.few_entries(),
            Mood::Shadowed => self.shadowed(),
        }
    }

    /// A process with 61 to 64 regions.
    fn few_slots(&mut self) -> Vec<MachineCall> {
        let mut calls = self.opened(2);
        let regions = SLOTS as u64 - self.random.below(4);
        calls.extend((0..regions).map(|_| {
            MachineCall::Create(Create {
                p: 0,
                start: None,
                size: self.size(),
                kind: Kind::Lazy(self.marks()),
            })
        }));
        calls
    }

    /// A process with 120 to 128 mapped pages, in a region of more; a range with two holders beside it.
    fn few_pages(&mut self) -> Vec<MachineCall> {
        let mut calls = self.opened(2);
        let copy = self.random.once_in(2);
        calls.push(at(0, LOW, 140, Kind::Lazy(free(copy))));
        calls.push(at(0, HIGH, 3, Kind::Eager(free(false))));
        calls.push(MachineCall::CloneRegion {
            p: 0,
            addr: HIGH,
            target: 1,
        });
        let pages = MAPPED as u64 - self.random.below(9);
        calls.push(populate(0, LOW, pages, !self.random.once_in(4)));
        calls
    }

    /// A machine with 508 to 512 entries: a region, its clones, and one with the rest; a range with two
    /// holders and a region that eager populate asks for beside them.
    fn few_entries(&mut self) -> Vec<MachineCall> {
        let mut calls = self.opened(PROCESSES as u64);
        let all = ENTRIES as u64 - self.random.below(5);
        let pages = self.random.pick(&[80, 96, 100, 120]);
        let clones = all / pages - 1;
        calls.push(at(0, LOW, pages, Kind::Lazy(free(false))));
        calls.push(populate(0, LOW, pages, true));
        calls.extend((1..=clones).map(|target| MachineCall::Clone { p: 0, target }));
        let (rest, last) = (all % pages, clones + 1);
        calls.push(at(last, HIGH, rest + 3, Kind::Lazy(free(false))));
        calls.push(populate(last, HIGH, rest, true));
        calls.push(at(last, LOW, 2, Kind::Lazy(free(true))));
        calls.push(at(1, HIGH, 3, Kind::Eager(free(false))));
        calls.push(MachineCall::CloneRegion {
            p: 1,
            addr: HIGH,
            target: 2,
        });
        calls
    }

    /// A range with two holders, some of whose pages have entries before them.
    fn shadowed(&mut self) -> Vec<MachineCall> {
        let mut calls = self.opened(3);
        let pages = 2 + self.random.below(4);
        calls.push(at(0, LOW, pages, Kind::Eager(free(false))));
        calls.push(populate(0, LOW, self.random.below(pages + 1), true));
        calls.push(MachineCall::Clone { p: 0, target: 1 });
        for _ in 0..1 + self.random.below(pages) {
            calls.push(MachineCall::Fault {
                p: self.random.below(2),
                addr: LOW + self.random.below(pages) * PAGE,
                write: true,
            });
        }
        calls
    }

    fn opened(&mut self, processes: u64) -> Vec<MachineCall> {
        let (start, size) = self.arena;
        let open = MachineCall::Open { start, size };
        (0..processes).map(|_| open.clone()).collect()
    }
}

fn at(p: u64, start: u64, pages: u64, kind: Kind) -> MachineCall {
    MachineCall::Create(Create {
        p,
        start: Some(start),
        size: pages * PAGE,
        kind,
    })
}

fn populate(p: u64, addr: u64, pages: u64, write: bool) -> MachineCall {
    let len = pages * PAGE;
    MachineCall::Populate {
        p,
        addr,
        len,
        write,
    }
}

fn free(copy: bool) -> Marks {
    Marks {
        flags: FREE,
        copy,
        thread: false,
    }
}
