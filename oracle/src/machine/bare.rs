//! The kernel's own functions for each call, without the tests and limits that the harness puts around them: what is timed beside
//! the proved calls. It answers as the machine does where no such test refuses.

use kernel::mcore::mtask::process::mem::MemoryRegion;
use kernel::mcore::mtask::process::mem::probe::CarveStop;
use kernel::mem::phys;
use x86_64::VirtAddr;
use x86_64::structures::paging::{Page, PageTableFlags};

use super::form::USER_END;
use super::{Machine, SLOTS, create, faults, forks, regions};
use crate::answer::{Answer, Refusal};
use crate::calls::{Create, Kind, MachineCall};

/// Where the starts of a list go.
pub type Starts = [u64; SLOTS];

impl Machine {
    /// The answer in one number: a process, a start, a byte, 1 for covered, how many starts there are; else 0. Files, starts
    /// and states are not the Rust's.
    ///
    /// # Errors
    /// The Rust's refusals.
    pub fn bare(&mut self, call: &MachineCall, starts: &mut Starts) -> Result<u64, Refusal> {
        match *call {
            MachineCall::File { .. } | MachineCall::Start { .. } | MachineCall::State => Ok(0),
            MachineCall::Open { start, size } => self.open_process(start, size),
            MachineCall::Close { p } => self.close(p).map(nothing),
            MachineCall::Create(ref create) => self.create_bare(create),
            MachineCall::Remove { p, addr } => {
                let process = self.process(p)?;
                let region = process.region_at(addr)?;
                process.regions.remove_region(&process.space, &region);
                Ok(0)
            }
            MachineCall::Clear { p } => {
                self.process(p)?.clear();
                Ok(0)
            }
            MachineCall::Carve { p, start, end } => {
                let carved = self.process(p)?.regions.carve(&(start..end));
                let inside =
                    carved.map_err(|error| regions::carve_refusal(CarveStop::Split(error)))?;
                Ok(list(starts, inside.iter().map(|region| region.addr())))
            }
            MachineCall::Covers { p, start, end } => {
                Ok(self.process(p)?.regions.covers(&(start..end)).into())
            }
            MachineCall::Region { p, addr } => {
                Ok(self.process(p)?.region_at(addr)?.addr().as_u64())
            }
            MachineCall::Regions { p } => {
                let attached = self.process(p)?.attached();
                Ok(list(starts, attached.iter().map(|region| region.addr())))
            }
            MachineCall::Fault { p, addr, write } => {
                let process = self.process(p)?;
                let page = Page::containing_address(VirtAddr::new(addr));
                let region = process.region_at(addr)?;
                let done = region.handle_fault(&process.space, page, write);
                done.map(|()| 0).map_err(faults::refusal)
            }
            MachineCall::Populate {
                p,
                addr,
                len,
                write,
            } => self.populate_bare(p, addr, len, write),
            MachineCall::Eager { p } => {
                let process = self.process(p)?;
                let done = process.regions.populate_eager_copies(&process.space);
                done.map(|()| 0).map_err(faults::refusal)
            }
            MachineCall::CloneRegion { p, addr, target } => {
                let source = self.process(p)?;
                let target = self.at(target)?;
                let region = source.region_at(addr)?;
                let clone = MemoryRegion::clone_into(&region, &source.space, &target.vmm);
                target.regions.add_region(clone.map_err(forks::refusal)?);
                Ok(0)
            }
            MachineCall::Clone { p, target } => {
                let source = self.process(p)?;
                let target = self.at(target)?;
                let regions = &source.regions;
                let done = regions.clone_into(&source.space, &target.regions, &target.vmm);
                done.map(|()| 0).map_err(forks::refusal)
            }
            MachineCall::Protect { p, addr, flags } => {
                let process = self.process(p)?;
                let region = process.region_at(addr)?;
                let flags = PageTableFlags::from_bits_retain(flags);
                let done = region.set_protection(&process.space, flags);
                done.map(|()| 0).map_err(|_| Refusal::UnsupportedRegion)
            }
            MachineCall::Pin { p, addr } => self.pin(p, addr).map(nothing),
            MachineCall::Unpin { p, addr } => self.unpin(p, addr).map(nothing),
            MachineCall::Load { p, addr } => {
                let (frame, at) = self.granted(p, addr, PageTableFlags::USER_ACCESSIBLE)?;
                Ok(phys::with_bytes(frame, |bytes| bytes[at]).into())
            }
            MachineCall::Store { p, addr, byte } => self.store(p, addr, byte).map(nothing),
        }
    }

    /// Where no run is free the kernel would unmap each page of the region, which may have 2^35: the harness's test stays.
    fn create_bare(&self, create: &Create) -> Result<u64, Refusal> {
        let process = self.process(create.p)?;
        let segment = self.reserve(create)?;
        if let Kind::Eager(_) = create.kind {
            create::has_run(segment.len)?;
        }
        let start = segment.start.as_u64();
        let region = self.make(create, segment)?;
        process.regions.add_region(region);
        Ok(start)
    }

    /// A range that the kernel would walk for ever is handed to it region by region, as by the harness.
    fn populate_bare(&self, p: u64, addr: u64, len: u64, write: bool) -> Result<u64, Refusal> {
        let process = self.process(p)?;
        let last = len.checked_sub(1).and_then(|to| addr.checked_add(to));
        match last {
            Some(last @ ..USER_END) if last - addr >= faults::LONGEST_WALK => {
                for (_, from, to) in faults::in_regions(process, addr, last) {
                    faults::hand_over(process, from, to - from + 1, write)?;
                }
            }
            _ => faults::hand_over(process, addr, len, write)?,
        }
        Ok(0)
    }
}

/// Puts the starts of regions where they go, and answers how many they are.
fn list(starts: &mut Starts, regions: impl Iterator<Item = VirtAddr>) -> u64 {
    let put = regions
        .zip(starts)
        .map(|(from, to)| *to = from.as_u64())
        .count();
    put as u64
}

fn nothing(_: Answer) -> u64 {
    0
}
