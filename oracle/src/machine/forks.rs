//! Clones of a region and of a process: the kernel's own, with the table limits before them.

use kernel::mcore::mtask::process::mem::probe::{self, Seen, SeenKind};
use kernel::mcore::mtask::process::mem::{CloneRegionError, ForkPolicy, MemoryRegion};

use super::form::PAGE;
use super::process::Process;
use super::{ENTRIES, Machine, SLOTS, form};
use crate::answer::{Answer, Refusal};

impl Machine {
    pub(super) fn clone_region(&self, p: u64, addr: u64, target: u64) -> Result<Answer, Refusal> {
        let source = self.process(p)?;
        let target = self.at(target)?;
        form::user(addr)?;
        let region = source.region_at(addr)?;
        self.clone_one(source, target, &region)?;
        Ok(Answer::done())
    }

    pub(super) fn clone_process(&self, p: u64, target: u64) -> Result<Answer, Refusal> {
        let source = self.process(p)?;
        let target = self.at(target)?;
        let regions = source.attached();
        let cloned = regions.iter().filter(|region| !region.is_per_thread());
        if self.has_room(target, cloned.clone().map(AsRef::as_ref)) {
            let done = source
                .regions
                .clone_into(&source.space, &target.regions, &target.vmm);
            return done.map(|()| Answer::done()).map_err(refusal);
        }
        for region in cloned {
            self.clone_one(source, target, region)?;
        }
        Ok(Answer::done())
    }

    /// Region cloning goes 9, 21, 14: the kernel says 9 and 14, and 21 stands between.
    fn clone_one(
        &self,
        source: &Process,
        target: &Process,
        region: &MemoryRegion,
    ) -> Result<(), Refusal> {
        if !is_reserved(target, region) && !self.has_room(target, [region].into_iter()) {
            return Err(Refusal::TableFull);
        }
        let clone = region
            .clone_into(&source.space, &target.vmm)
            .map_err(refusal)?;
        target.regions.add_region(clone);
        Ok(())
    }

    /// Whether the tables take the clones of all these regions.
    fn has_room<'a>(
        &self,
        target: &Process,
        regions: impl Iterator<Item = &'a MemoryRegion> + Clone,
    ) -> bool {
        let entries: usize = regions
            .clone()
            .map(|r| wanted_entries(&probe::see(r)))
            .sum();
        target.slots() + regions.count() <= SLOTS && self.entries() + entries <= ENTRIES
    }
}

/// Page entries of a region's clone: those of the region, and for a copy its range's pages as well.
fn wanted_entries(seen: &Seen) -> usize {
    let copied = match seen.kind {
        SeenKind::Private(marks) | SeenKind::File(marks, _) => marks.fork == ForkPolicy::CopyEager,
        SeenKind::Shared => false,
    };
    let Some(range) = seen.range.filter(|_| copied) else {
        return seen.pages.len();
    };
    let in_range = range.page..range.page + range.len * PAGE;
    let shadowed = seen
        .pages
        .iter()
        .filter(|(page, ..)| in_range.contains(page))
        .count();
    seen.pages.len() + range.len as usize - shadowed
}

/// Whether the kernel will find the region's segment reserved in the target.
fn is_reserved(target: &Process, region: &MemoryRegion) -> bool {
    let (start, len) = probe::see(region).segment;
    target.vmm.read().segments().any(|s| {
        let held = s.start.as_u64();
        held < start + len && start < held + s.len
    })
}

pub(super) fn refusal(error: CloneRegionError) -> Refusal {
    match error {
        CloneRegionError::SegmentReserved => Refusal::SegmentReserved,
        CloneRegionError::OutOfMemory => Refusal::OutOfMemory,
        CloneRegionError::RemapFailed | CloneRegionError::MapFailed => {
            unreachable!("it has no cause: RULES W10")
        }
    }
}
