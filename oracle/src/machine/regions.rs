//! Look-ups, removal, carve, protection and pins.

use std::sync::Arc;

use kernel::mcore::mtask::process::mem::probe::{self, CarveStop};
use kernel::mcore::mtask::process::mem::{MemoryRegion, SetProtectionError, SplitError};
use x86_64::structures::paging::PageTableFlags;

use super::process::Pin;
use super::{Machine, PINS, SLOTS, form};
use crate::answer::{Answer, Refusal};

/// A carve splits at two bounds, so it wants at most this many more slots.
const CARVE_SLOTS: usize = 2;

impl Machine {
    pub(super) fn remove(&self, p: u64, addr: u64) -> Result<Answer, Refusal> {
        let process = self.process(p)?;
        form::user(addr)?;
        let region = process.region_at(addr)?;
        process.regions.remove_region(&process.space, &region);
        Ok(Answer::done())
    }

    pub(super) fn clear(&self, p: u64) -> Result<Answer, Refusal> {
        self.process(p)?.clear();
        Ok(Answer::done())
    }

    pub(super) fn carve(&self, p: u64, start: u64, end: u64) -> Result<Answer, Refusal> {
        let process = self.process(p)?;
        self.guard(form::carve(start, end))?;
        let free = SLOTS - process.slots();
        let inside = if free < CARVE_SLOTS {
            probe::carve_with_slots(&process.regions, &(start..end), free)
        } else {
            process
                .regions
                .carve(&(start..end))
                .map_err(CarveStop::Split)
        };
        Ok(starts(&inside.map_err(carve_refusal)?))
    }

    pub(super) fn covers(&self, p: u64, start: u64, end: u64) -> Result<Answer, Refusal> {
        let process = self.process(p)?;
        Ok(Answer::verdict(process.regions.covers(&(start..end))))
    }

    pub(super) fn region(&self, p: u64, addr: u64) -> Result<Answer, Refusal> {
        let process = self.process(p)?;
        form::user(addr)?;
        Ok(Answer::hex(process.region_at(addr)?.addr().as_u64()))
    }

    pub(super) fn regions(&self, p: u64) -> Result<Answer, Refusal> {
        Ok(starts(&self.process(p)?.attached()))
    }

    pub(super) fn protect(&self, p: u64, addr: u64, flags: u64) -> Result<Answer, Refusal> {
        let process = self.process(p)?;
        form::user(addr)?;
        self.guard(form::flags(flags))?;
        let region = process.region_at(addr)?;
        let flags = PageTableFlags::from_bits_retain(flags);
        match region.set_protection(&process.space, flags) {
            Ok(()) => Ok(Answer::done()),
            Err(SetProtectionError::UnsupportedRegion) => Err(Refusal::UnsupportedRegion),
            Err(SetProtectionError::RemapFailed) => unreachable!("it has no cause: RULES W10"),
        }
    }

    pub(super) fn pin(&mut self, p: u64, addr: u64) -> Result<Answer, Refusal> {
        let process = self.process_mut(p)?;
        form::user(addr)?;
        let region = process.region_at(addr)?;
        let pin = process
            .pins
            .iter_mut()
            .find(|pin| Arc::ptr_eq(&pin.region, &region));
        match pin {
            Some(pin) if pin.count == PINS => return Err(Refusal::TableFull),
            Some(pin) => pin.count += 1,
            None => process.pins.push(Pin { region, count: 1 }),
        }
        Ok(Answer::done())
    }

    /// Takes one pin off the attached or detached region there; with the last one a detached
    /// region's last handle goes, and the kernel frees what it held.
    pub(super) fn unpin(&mut self, p: u64, addr: u64) -> Result<Answer, Refusal> {
        let process = self.process_mut(p)?;
        form::user(addr)?;
        let addr = x86_64::VirtAddr::new(addr);
        let at = process
            .pins
            .iter()
            .position(|pin| pin.region.contains(addr));
        let at = at.ok_or(Refusal::NoRegion)?;
        process.pins[at].count -= 1;
        if process.pins[at].count == 0 {
            process.pins.remove(at);
        }
        Ok(Answer::done())
    }
}

pub(super) fn carve_refusal(stop: CarveStop) -> Refusal {
    match stop {
        CarveStop::Split(SplitError::EagerBacking) => Refusal::EagerBacking,
        CarveStop::Split(SplitError::Shared) => Refusal::Shared,
        CarveStop::Split(SplitError::InUse) => Refusal::InUse,
        CarveStop::TableFull => Refusal::TableFull,
    }
}

fn starts(regions: &[Arc<MemoryRegion>]) -> Answer {
    Answer::list(
        regions
            .iter()
            .map(|region| region.addr().as_u64())
            .collect(),
        1,
    )
}
