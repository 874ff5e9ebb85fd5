//! A machine of our own, written from the rules alone and not from the Rust. It stores no holder
//! counts and no free frames: both are counted afresh from the regions each time. It can be made
//! wrong in one place, to show that a comparison finds it.

mod create;
mod faults;
mod forks;
mod form;
mod region;
mod regions;
mod state;

use std::collections::BTreeMap;

use region::Region;

use crate::answer::{Answer, Refusal};
use crate::calls::MachineCall;

// RULES N3 to N9.
const PROCESSES: usize = 8;
const SLOTS: usize = 64;
const MAPPED: usize = 128;
const ENTRIES: usize = 512;
const FILES: usize = 8;
const FRAMES: u64 = 256;
const PINS: u64 = 65_535;
pub const PAGE: u64 = 4096;
pub const WRITABLE: u64 = 1 << 1;
pub const USER: u64 = 1 << 2;
pub const ALL_FLAGS: u64 = 1 << 63 | 0b111;

pub type Bytes = [u8; PAGE as usize];

#[derive(Default)]
pub struct PlainMachine {
    frames: Vec<Bytes>,
    files: Vec<Option<Vec<u8>>>,
    processes: [Option<Process>; PROCESSES],
    wrong: bool,
}

#[derive(Default)]
pub struct Process {
    arena: (u64, u64),
    /// In list order.
    pub attached: Vec<Region>,
    pub detached: Vec<Region>,
    /// Frame and flags by page start.
    mapped: BTreeMap<u64, (usize, u64)>,
}

impl PlainMachine {
    #[must_use]
    pub fn new() -> Self {
        Self::default()
    }

    /// The same, but for one test in the clone.
    #[must_use]
    pub fn wrong() -> Self {
        Self {
            wrong: true,
            ..Self::default()
        }
    }

    pub fn answer(&mut self, call: &MachineCall) -> Answer {
        self.try_answer(call).into()
    }

    /// The bytes of a frame that is there.
    #[must_use]
    pub fn frame(&self, frame: usize) -> &[u8] {
        &self.frames[frame]
    }

    /// The process of this number, if it is open.
    #[must_use]
    pub fn open_process(&self, p: usize) -> Option<&Process> {
        self.processes[p].as_ref()
    }

    fn try_answer(&mut self, call: &MachineCall) -> Result<Answer, Refusal> {
        match *call {
            MachineCall::File {
                readable,
                ref bytes,
            } => self.file(readable, bytes),
            MachineCall::Start { frames } => self.start(frames),
            MachineCall::Open { start, size } => self.open(start, size),
            MachineCall::Close { p } => self.close(p),
            MachineCall::Create(ref create) => self.create(create),
            MachineCall::Remove { p, addr } => self.remove(p, addr),
            MachineCall::Clear { p } => self.clear(p),
            MachineCall::Carve { p, start, end } => self.carve(p, start, end),
            MachineCall::Covers { p, start, end } => self.covers(p, start, end),
            MachineCall::Region { p, addr } => {
                let at = self.find(p, addr)?;
                Ok(Answer::hex(self.process(p)?.attached[at].start))
            }
            MachineCall::Regions { p } => {
                let starts = self.process(p)?.attached.iter().map(|region| region.start);
                Ok(Answer::list(starts.collect(), 1))
            }
            MachineCall::Fault { p, addr, write } => {
                let at = self.find(p, addr)?;
                self.fault(p, at, addr / PAGE * PAGE, write)?;
                Ok(Answer::done())
            }
            MachineCall::Populate {
                p,
                addr,
                len,
                write,
            } => self.populate(p, addr, len, write),
            MachineCall::Eager { p } => self.eager(p),
            MachineCall::CloneRegion { p, addr, target } => self.clone_region(p, addr, target),
            MachineCall::Clone { p, target } => self.clone_process(p, target),
            MachineCall::Protect { p, addr, flags } => self.protect(p, addr, flags),
            MachineCall::Pin { p, addr } => self.pin(p, addr),
            MachineCall::Unpin { p, addr } => self.unpin(p, addr),
            MachineCall::Load { p, addr } => self.load(p, addr),
            MachineCall::Store { p, addr, byte } => self.store(p, addr, byte),
            MachineCall::State => Ok(Answer::State(self.snapshot(true).to_string())),
        }
    }

    fn file(&mut self, readable: bool, bytes: &[u8]) -> Result<Answer, Refusal> {
        if self.files.len() == FILES {
            return Err(Refusal::TableFull);
        }
        self.files.push(readable.then(|| bytes.to_vec()));
        Ok(Answer::count(self.files.len() as u64 - 1))
    }

    fn start(&mut self, frames: u64) -> Result<Answer, Refusal> {
        if frames > FRAMES {
            return Err(Refusal::BadTable);
        }
        self.frames = vec![[0; PAGE as usize]; frames as usize];
        self.processes = Default::default();
        Ok(Answer::done())
    }

    fn open(&mut self, start: u64, size: u64) -> Result<Answer, Refusal> {
        form::arena(start, size)?;
        let p = self
            .processes
            .iter()
            .position(Option::is_none)
            .ok_or(Refusal::TableFull)?;
        self.processes[p] = Some(Process {
            arena: (start, size),
            ..Process::default()
        });
        Ok(Answer::count(p as u64))
    }

    fn close(&mut self, p: u64) -> Result<Answer, Refusal> {
        if self.process(p)?.regions().any(|region| region.pins > 0) {
            return Err(Refusal::InUse);
        }
        self.processes[p as usize] = None;
        Ok(Answer::done())
    }

    fn load(&self, p: u64, addr: u64) -> Result<Answer, Refusal> {
        let (frame, at) = self.granted(p, addr, USER)?;
        Ok(Answer::count(self.frames[frame][at].into()))
    }

    fn store(&mut self, p: u64, addr: u64, byte: u8) -> Result<Answer, Refusal> {
        let (frame, at) = self.granted(p, addr, USER | WRITABLE)?;
        self.frames[frame][at] = byte;
        Ok(Answer::done())
    }

    fn granted(&self, p: u64, addr: u64, rights: u64) -> Result<(usize, usize), Refusal> {
        let process = self.process(p)?;
        form::user(addr)?;
        match process.mapped.get(&(addr / PAGE * PAGE)) {
            Some((frame, flags)) if flags & rights == rights => {
                Ok((*frame, (addr % PAGE) as usize))
            }
            _ => Err(Refusal::Denied),
        }
    }

    fn process(&self, p: u64) -> Result<&Process, Refusal> {
        let process = self.processes.get(p as usize).and_then(Option::as_ref);
        process.ok_or(Refusal::NoProcess)
    }

    fn process_mut(&mut self, p: u64) -> Result<&mut Process, Refusal> {
        let process = self.processes.get_mut(p as usize).and_then(Option::as_mut);
        process.ok_or(Refusal::NoProcess)
    }

    /// The place in the list of the attached region that holds a user address.
    fn find(&self, p: u64, addr: u64) -> Result<usize, Refusal> {
        let process = self.process(p)?;
        form::user(addr)?;
        process.at(addr).ok_or(Refusal::NoRegion)
    }

    fn all_regions(&self) -> impl Iterator<Item = &Region> {
        self.processes.iter().flatten().flat_map(Process::regions)
    }

    fn entries(&self) -> usize {
        self.all_regions().map(|region| region.pages.len()).sum()
    }

    fn is_free(&self, frame: usize) -> bool {
        !self.all_regions().any(|region| region.holds(frame))
    }

    /// The lowest run of this many free frames.
    fn lowest_run(&self, count: usize) -> Result<usize, Refusal> {
        let used = self.used();
        let last = used.len().checked_sub(count).ok_or(Refusal::OutOfMemory)?;
        let free = |at: &usize| used[*at..*at + count].iter().all(|used| !used);
        (0..=last).find(free).ok_or(Refusal::OutOfMemory)
    }

    fn used(&self) -> Vec<bool> {
        let mut used = vec![false; self.frames.len()];
        for region in self.all_regions() {
            region.pages.values().for_each(|frame| used[*frame] = true);
            region.range_frames().for_each(|frame| used[frame] = true);
        }
        used
    }

    /// How many regions hold the backing of a page of this region.
    fn holders(&self, region: &Region, page: u64) -> usize {
        let others = self.all_regions();
        match region.pages.get(&page) {
            Some(frame) => others
                .flat_map(|r| r.pages.values())
                .filter(|f| *f == frame)
                .count(),
            None => others
                .filter(|r| r.range.is_some() && r.range == region.range)
                .count(),
        }
    }
}

impl Process {
    fn regions(&self) -> impl Iterator<Item = &Region> {
        self.attached.iter().chain(&self.detached)
    }

    /// Start and size of each region.
    #[must_use]
    pub fn spans(&self) -> Vec<(u64, u64)> {
        self.regions()
            .map(|region| (region.start, region.size))
            .collect()
    }

    /// Start and size of each pinned region.
    #[must_use]
    pub fn pinned_spans(&self) -> Vec<(u64, u64)> {
        let pinned = self.regions().filter(|region| region.pins > 0);
        pinned.map(|region| (region.start, region.size)).collect()
    }

    #[must_use]
    pub fn mapped_pages(&self) -> Vec<u64> {
        self.mapped.keys().copied().collect()
    }

    fn at(&self, addr: u64) -> Option<usize> {
        self.attached
            .iter()
            .position(|region| region.contains(addr))
    }

    fn slots_left(&self) -> usize {
        SLOTS - self.regions().count()
    }

    /// Maps a page that is not mapped.
    fn map(&mut self, page: u64, frame: usize, flags: u64) {
        self.mapped.insert(page, (frame, flags));
    }

    fn is_full(&self) -> bool {
        self.mapped.len() == MAPPED
    }

    /// The mapped pages of a region.
    fn mapped_in(&mut self, region: (u64, u64)) -> impl Iterator<Item = (&u64, &mut (usize, u64))> {
        self.mapped.range_mut(region.0..region.0 + region.1)
    }

    fn unmap(&mut self, start: u64, size: u64) {
        self.mapped
            .retain(|page, _| !(start..start + size).contains(page));
    }
}
