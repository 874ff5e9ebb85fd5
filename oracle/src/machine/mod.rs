//! The machine of the rules, answered by the kernel's mem.rs: processes, frames, files, pins, and
//! the refusals that the kernel does not have.

mod bare;
mod bytes;
mod create;
mod faults;
mod forks;
pub(crate) mod form;
mod process;
mod regions;
mod snapshot;

pub use bare::Starts;
pub use kernel::mem::address_space::USER_PAGES as MAPPED;
pub use process::Process;
pub use snapshot::{ProcessView, RegionKind, RegionView, Snapshot, sum};

use std::sync::Arc;

use kernel::mem::address_space::AddressSpace;
use kernel::mem::phys;
use kernel_vfs::node::VfsNode;

use crate::answer::{Answer, Refusal};
use crate::calls::MachineCall;
use crate::caught::caught;

pub const PROCESSES: usize = 8;
pub const SLOTS: usize = 64;
pub const ENTRIES: usize = 512;
pub const FILES: usize = 8;
pub const PINS: u64 = 65_535;

pub struct Machine {
    frames: usize,
    processes: [Option<Process>; PROCESSES],
    files: Vec<VfsNode>,
    /// Where the kernel zeroes an eager region, which the rules leave unmapped (RULES C10).
    creation: AddressSpace,
    /// An unguarded machine hands even what the rules refuse to the kernel.
    guarded: bool,
}

impl Machine {
    /// A machine without files or frames.
    #[must_use]
    pub fn new(guarded: bool) -> Self {
        kernel::boot();
        phys::start(0);
        Self {
            frames: 0,
            processes: Default::default(),
            files: Vec::new(),
            creation: AddressSpace::for_creation(),
            guarded,
        }
    }

    pub fn answer(&mut self, call: &MachineCall) -> Answer {
        caught(|| self.try_answer(call).into())
    }

    fn try_answer(&mut self, call: &MachineCall) -> Result<Answer, Refusal> {
        match call {
            MachineCall::File { readable, bytes } => self.file(*readable, bytes),
            MachineCall::Start { frames } => self.start(*frames),
            MachineCall::Open { start, size } => self.open(*start, *size),
            MachineCall::Close { p } => self.close(*p),
            MachineCall::Create(create) => self.create(create),
            MachineCall::Remove { p, addr } => self.remove(*p, *addr),
            MachineCall::Clear { p } => self.clear(*p),
            MachineCall::Carve { p, start, end } => self.carve(*p, *start, *end),
            MachineCall::Covers { p, start, end } => self.covers(*p, *start, *end),
            MachineCall::Region { p, addr } => self.region(*p, *addr),
            MachineCall::Regions { p } => self.regions(*p),
            MachineCall::Fault { p, addr, write } => self.fault(*p, *addr, *write),
            MachineCall::Populate {
                p,
                addr,
                len,
                write,
            } => self.populate(*p, *addr, *len, *write),
            MachineCall::Eager { p } => self.eager(*p),
            MachineCall::CloneRegion { p, addr, target } => self.clone_region(*p, *addr, *target),
            MachineCall::Clone { p, target } => self.clone_process(*p, *target),
            MachineCall::Protect { p, addr, flags } => self.protect(*p, *addr, *flags),
            MachineCall::Pin { p, addr } => self.pin(*p, *addr),
            MachineCall::Unpin { p, addr } => self.unpin(*p, *addr),
            MachineCall::Load { p, addr } => self.load(*p, *addr),
            MachineCall::Store { p, addr, byte } => self.store(*p, *addr, *byte),
            MachineCall::State => Ok(Answer::State(self.snapshot(true).to_string())),
        }
    }

    fn file(&mut self, readable: bool, bytes: &[u8]) -> Result<Answer, Refusal> {
        if self.files.len() == FILES {
            return Err(Refusal::TableFull);
        }
        let number = self.files.len();
        self.files
            .push(VfsNode::new(number, readable.then(|| Arc::from(bytes))));
        Ok(Answer::count(number as u64))
    }

    /// Empties the machine; the files stay lent.
    fn start(&mut self, frames: u64) -> Result<Answer, Refusal> {
        let frames = usize::try_from(frames)
            .ok()
            .filter(|frames| *frames <= phys::FRAMES);
        let frames = frames.ok_or(Refusal::BadTable)?;
        self.processes = Default::default();
        phys::start(frames);
        self.frames = frames;
        Ok(Answer::done())
    }

    fn open(&mut self, start: u64, size: u64) -> Result<Answer, Refusal> {
        form::arena(start, size)?;
        self.open_process(start, size).map(Answer::count)
    }

    fn open_process(&mut self, start: u64, size: u64) -> Result<u64, Refusal> {
        let closed = self
            .processes
            .iter_mut()
            .enumerate()
            .find(|(_, p)| p.is_none());
        let (number, place) = closed.ok_or(Refusal::TableFull)?;
        *place = Some(Process::open(start, size));
        Ok(number as u64)
    }

    fn close(&mut self, p: u64) -> Result<Answer, Refusal> {
        let process = self.process(p)?;
        if !process.pins.is_empty() {
            return Err(Refusal::InUse);
        }
        process.clear();
        self.processes[p as usize] = None;
        Ok(Answer::done())
    }

    /// The kernel's own parts of an open process, its page table made the active one.
    #[must_use]
    pub fn parts(&self, p: u64) -> Option<&Process> {
        self.process(p).ok()
    }

    /// The open process of this number, its page table made the active one.
    fn process(&self, p: u64) -> Result<&Process, Refusal> {
        let process = self.at(p)?;
        process.space.activate();
        Ok(process)
    }

    fn at(&self, p: u64) -> Result<&Process, Refusal> {
        let place = usize::try_from(p).ok().and_then(|p| self.processes.get(p));
        place.and_then(Option::as_ref).ok_or(Refusal::NoProcess)
    }

    fn process_mut(&mut self, p: u64) -> Result<&mut Process, Refusal> {
        let place = usize::try_from(p)
            .ok()
            .and_then(|p| self.processes.get_mut(p));
        place.and_then(Option::as_mut).ok_or(Refusal::NoProcess)
    }

    /// A test of form, which an unguarded machine leaves out.
    fn guard(&self, test: Result<(), Refusal>) -> Result<(), Refusal> {
        if self.guarded { test } else { Ok(()) }
    }

    /// The page entries of all processes, detached regions among them.
    fn entries(&self) -> usize {
        self.processes.iter().flatten().map(Process::entries).sum()
    }
}

impl Drop for Machine {
    /// The regions give their frames back to the pool before another machine starts it.
    fn drop(&mut self) {
        self.processes = Default::default();
    }
}
